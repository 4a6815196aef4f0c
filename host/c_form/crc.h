/* CRC_A of ISO/IEC 14443-3, worked out apart from the library. */
#ifndef CRC_H
#define CRC_H

#include <stddef.h>
#include <stdint.h>

/* Puts the CRC_A of the bytes behind them, low byte first. */
void put_crc(uint8_t *bytes, size_t count);

#endif
