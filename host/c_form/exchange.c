/* Prints the exchange that docs/C-FORM.md shows, from a real run: its argument is the image. Of the record it prints the rows that a call
 * has changed. */
#include <stdio.h>
#include <string.h>

#include "crc.h"
#include "kazdumera.h"

static uint8_t record[KZ_RECORD_SIZE], store[KZ_STORE_SIZE], reply[KZ_REPLY_SIZE];
static uint8_t shown[KZ_RECORD_SIZE];

/* The block of the sample's login: there the challenge is the line's number. */
static const uint8_t random_block[KZ_RANDOM_SIZE] = {2, 2, 2, 2, 2, 2, 2, 2, 2, 2, 2, 2, 2, 2, 2, 2};

/* Frames without CRC. */
static const struct {
    const char *name;
    size_t count;
    uint8_t bytes[33];
} frames[] = {
    {"READ 00h", 2, {0x30, 0x00}},
    {"INCR_CNT 0 by 10", 6, {0xA5, 0x00, 0x0A, 0x00, 0x00, 0x00}},
    {"AUTHENTICATE with key 2, part 1", 2, {0x1A, 0x02}},
    {"part 2, the proof", 33, {0xAF, 0x46, 0xAF, 0x46, 0xEE, 0x4E, 0x4C, 0xD6, 0x92, 0x48, 0xAF, 0x4F, 0xA0, 0x38, 0xB0, 0xA1, 0x99,
                               0xD9, 0xFC, 0x03, 0xF1, 0x36, 0x52, 0x07, 0x9F, 0xD2, 0xCA, 0x3A, 0xA1, 0xE1, 0xD5, 0xBD, 0x5E}},
    {"WRITE 04h, which this key doesn't open", 6, {0xA2, 0x04, 0x11, 0x22, 0x33, 0x44}},
    {"READ 00h again", 2, {0x30, 0x00}},
};

/* Nothing where there are no bytes. */
static void print_bytes(const char *label, const uint8_t *bytes, size_t count) {
    size_t i;
    for (i = 0; i < count; i++) {
        if (i % 19 == 0) {
            printf("%s  %-10s", i ? "\n" : "", i ? "" : label);
        }
        printf(" %02x", bytes[i]);
    }
    printf("%s", count ? "\n" : "");
}

static void print_record(int whole) {
    char label[16];
    unsigned row;
    for (row = 0; row < 3; row++) {
        snprintf(label, sizeof label, "record %u", 16 * row);
        if (whole || memcmp(record + 16 * row, shown + 16 * row, 16) != 0) {
            print_bytes(label, record + 16 * row, 16);
        }
    }
    memcpy(shown, record, sizeof shown);
}

static void send(const char *name, const uint8_t *bytes, size_t count) {
    uint8_t frame[40];
    uint64_t answer;
    memcpy(frame, bytes, count);
    put_crc(frame, count);
    answer = kz_frame(record, sizeof record, store, sizeof store, frame, count + 2, random_block, sizeof random_block, reply, sizeof reply);
    printf("\nkz_frame: %s\n", name);
    print_bytes("frame", frame, count + 2);
    printf("  answer     %016llxh\n", (unsigned long long)answer);
    print_bytes("reply", reply, kz_answer_bytes(answer));
    print_record(0);
}

static int load(const char *path) {
    uint8_t image[KZ_IMAGE_SIZE + 1];
    FILE *file = fopen(path, "rb");
    size_t count = file ? fread(image, 1, sizeof image, file) : 0;
    if (file) {
        fclose(file);
    }
    printf("kz_load: %s\n", path);
    printf("  number     %d\n", kz_load(record, sizeof record, store, sizeof store, image, count));
    print_record(1);
    return count == KZ_IMAGE_SIZE;
}

int main(int argc, char **argv) {
    size_t n;
    if (argc != 2 || !load(argv[1])) {
        return 1;
    }
    printf("\nkz_select\n");
    printf("  number     %d\n", kz_select(record, sizeof record));
    print_record(0);
    for (n = 0; n < sizeof frames / sizeof frames[0]; n++) {
        send(frames[n].name, frames[n].bytes, frames[n].count);
    }
    return 0;
}
