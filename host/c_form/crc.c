#include "crc.h"

void put_crc(uint8_t *bytes, size_t count) {
    unsigned crc = 0x6363;
    size_t i;
    int bit;
    for (i = 0; i < count; i++) {
        crc ^= bytes[i];
        for (bit = 0; bit < 8; bit++) {
            crc = crc >> 1 ^ (crc & 1 ? 0x8408 : 0);
        }
    }
    bytes[count] = (uint8_t)crc;
    bytes[count + 1] = (uint8_t)(crc >> 8);
}
