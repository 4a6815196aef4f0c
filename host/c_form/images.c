/* What loading and saving leave in each buffer, by number, and check bytes, which loading alone judges. Wrong lengths are in lengths.c. */
#include <string.h>

#include "check.h"
#include "crc.h"
#include "sound.h"

#define COUNT(list) (sizeof(list) / sizeof(list)[0])

/* Where the check bytes and the failed count stand in an image. */
enum { BCC0_AT = 4, BCC1_AT = 9, IMAGE_FAILED_AT = 252 };

/* A byte of an image, and what it is changed to. */
static const struct {
    size_t at;
    uint8_t byte;
} wrong_counts[] = {{0, 59}, {0, 61}, {0, 0}, {241, 2}, {241, 4}, {251, 0}, {251, 2}, {254, 0}, {254, 2}, {254, 255}};

/* Record and store hold guard bytes before a load. */
static void lend_image(enum side side) {
    uint8_t image[KZ_IMAGE_SIZE];
    sound_image(image);
    lend(RECORD, KZ_RECORD_SIZE, side);
    lend(STORE, KZ_STORE_SIZE, side);
    lend(IMAGE, KZ_IMAGE_SIZE, side);
    put(IMAGE, 0, image, sizeof image);
}

static void refused_image(const char *words) {
    static const uint8_t zeros[KZ_RECORD_SIZE];
    expect_nothing();
    expect(RECORD, 0, zeros, sizeof zeros);
    run(LOAD, KZ_IMAGE_WRONG, "%s", words);
}

static void section_counts(void) {
    size_t n;
    int side;
    for (n = 0; n < COUNT(wrong_counts); n++) {
        for (side = AT_START; side < SIDES; side++) {
            lend_image((enum side)side);
            lent(IMAGE)[wrong_counts[n].at] = wrong_counts[n].byte;
            refused_image("a section with another count");
        }
    }
}

/* Each bit of both check bytes, and of every byte of the serial number, whose two parts lie before them. */
static void check_byte_bits(void) {
    size_t at;
    int bit, side;
    for (at = 1; at <= BCC1_AT; at++) {
        for (bit = 0; bit < 8; bit++) {
            for (side = AT_START; side < SIDES; side++) {
                lend_image((enum side)side);
                lent(IMAGE)[at] ^= (uint8_t)(1 << bit);
                refused_image("a bit of the serial number or its check bytes");
            }
        }
    }
}

/* The cascade tag 88h is in BCC0 alone. With the same bits wrong in both, the check bytes would be right together. */
static void check_byte_rules(void) {
    static const struct {
        uint8_t in_bcc0, in_bcc1;
    } wrong[] = {{0x88, 0}, {0, 0x88}, {0x88, 0x88}, {0x01, 0x01}};
    size_t n;
    int side;
    for (n = 0; n < COUNT(wrong); n++) {
        for (side = AT_START; side < SIDES; side++) {
            lend_image((enum side)side);
            lent(IMAGE)[BCC0_AT] ^= wrong[n].in_bcc0;
            lent(IMAGE)[BCC1_AT] ^= wrong[n].in_bcc1;
            refused_image("check bytes by another rule");
        }
    }
}

/* Of a serial number of zeros the check bytes are 88h and 00h. */
static void zero_serial(void) {
    static const uint8_t serial[9] = {0, 0, 0, 0x88, 0, 0, 0, 0, 0};
    int side;
    for (side = AT_START; side < SIDES; side++) {
        lend_image((enum side)side);
        put(IMAGE, 1, serial, sizeof serial);
        expect_nothing();
        expect_any(RECORD);
        expect(STORE, 0, lent(IMAGE) + 1, KZ_STORE_SIZE);
        run(LOAD, KZ_CARRIED_OUT, "a serial number of zeros, side %d", side);
    }
}

/* READ 00h of a store with a wrong check byte in it: it is sent as it is stored. */
static void read_check_byte(size_t at) {
    uint8_t pages[18];
    lend_sound(KZ_STATE_ACTIVE, AT_END);
    lent(STORE)[at] ^= 0x10;
    lent(FRAME)[1] = 0x00;
    put_crc(lent(FRAME), 2);
    memcpy(pages, lent(STORE), 16);
    put_crc(pages, 16);
    expect_nothing();
    expect_fleeting(KZ_STATE_ACTIVE);
    expect(REPLY, 0, pages, sizeof pages);
    run(SEND, UINT64_C(18) << 32 | 2u << 8, "READ 00h, store byte %zu wrong", at);
}

/* A WRITE to page 02h, whose first two bytes it leaves: it mends none. */
static void write_beside_check_byte(size_t at) {
    static const uint8_t write_02[6] = {0xA2, 0x02, 0xFF, 0xFF, 0x00, 0x00};
    lend_sound(KZ_STATE_ACTIVE, AT_END);
    lent(STORE)[at] ^= 0x10;
    lend(FRAME, 8, AT_END);
    put(FRAME, 0, write_02, sizeof write_02);
    put_crc(lent(FRAME), sizeof write_02);
    expect_nothing();
    expect_fleeting(KZ_STATE_ACTIVE);
    run(SEND, KZ_ACK << 16 | 1u << 8, "WRITE 02h, store byte %zu wrong", at);
}

/* An image of such a store is saved like any other, and then not loaded. */
static void save_check_byte(size_t at) {
    uint8_t image[KZ_IMAGE_SIZE];
    sound_image(image);
    image[1 + at] ^= 0x10;
    lend_sound(KZ_STATE_ACTIVE, AT_END);
    lent(STORE)[at] ^= 0x10;
    lend(IMAGE, KZ_IMAGE_SIZE, AT_END);
    expect_nothing();
    expect(IMAGE, 0, image, sizeof image);
    run(SAVE, KZ_CARRIED_OUT, "save, store byte %zu wrong", at);
    refused_image("an image saved with a wrong check byte");
}

static void stored_check_bytes(void) {
    static const size_t stored_at[] = {BCC0_AT - 1, BCC1_AT - 1};
    size_t n;
    for (n = 0; n < COUNT(stored_at); n++) {
        read_check_byte(stored_at[n]);
        write_beside_check_byte(stored_at[n]);
        save_check_byte(stored_at[n]);
    }
}

/* The failed count of an image, and of the record it is loaded into: low byte first in both. */
static void image_failed_counts(void) {
    uint8_t record[KZ_RECORD_SIZE], store[KZ_STORE_SIZE], count[2];
    unsigned n;
    sound_record(record, KZ_STATE_WAITING);
    sound_store(store);
    for (n = 0; n <= 0xFFFF; n += n < 1200 ? 1 : 997) {
        count[0] = (uint8_t)n;
        count[1] = (uint8_t)(n >> 8);
        lend_image(AT_END);
        put(IMAGE, IMAGE_FAILED_AT, count, 2);
        if (n > 1023) {
            refused_image("a failed count above 1,023");
            continue;
        }
        expect_nothing();
        expect(RECORD, 0, record, sizeof record);
        expect(RECORD, FAILED_AT, count, 2);
        expect(STORE, 0, store, sizeof store);
        expect_fleeting(KZ_STATE_WAITING);
        run(LOAD, KZ_CARRIED_OUT, "a failed count of %u", n);
    }
}

/* A wrong record or store comes before a wrong image, and then nothing changes. */
static void buffers_first(void) {
    static const struct {
        int buffer;
        size_t len;
    } lengths[] = {{STORE, 0}, {STORE, 239}, {STORE, 241}, {RECORD, 0}, {RECORD, 47}, {RECORD, 49}};
    static const size_t wrong_at[] = {0, BCC0_AT, BCC1_AT, IMAGE_FAILED_AT + 1};
    size_t n, w;
    for (n = 0; n < COUNT(lengths); n++) {
        for (w = 0; w < COUNT(wrong_at); w++) {
            lend_image(AT_END);
            lend(lengths[n].buffer, lengths[n].len, AT_END);
            lent(IMAGE)[wrong_at[w]] ^= 0x40;
            expect_nothing();
            run(LOAD, KZ_BUFFER_WRONG, "buffer %d of %zu bytes, byte %zu of the image wrong", lengths[n].buffer, lengths[n].len, wrong_at[w]);
        }
    }
}

/* Image, load, save: the same bytes, whatever the record and the image buffer held before. */
static void round_trip(void) {
    uint8_t image[KZ_IMAGE_SIZE];
    int side;
    for (side = AT_START; side < SIDES; side++) {
        lend_image((enum side)side);
        memcpy(image, lent(IMAGE), sizeof image);
        expect_nothing();
        expect_any(RECORD);
        expect_any(STORE);
        run(LOAD, KZ_CARRIED_OUT, "an image loaded, side %d", side);
        lend(IMAGE, 300, (enum side)side);
        expect_nothing();
        expect(IMAGE, 0, image, sizeof image);
        run(SAVE, KZ_CARRIED_OUT, "an image saved again, side %d", side);
    }
}

/* An image has only what is stored: it is the same in every state, and saving leaves the state. */
static void saved_states(void) {
    uint8_t image[KZ_IMAGE_SIZE], state;
    sound_image(image);
    for (state = KZ_STATE_WAITING; state <= KZ_STATE_CHALLENGED; state++) {
        lend_sound(state, AT_END);
        lend(IMAGE, 280, AT_END);
        expect_nothing();
        expect(IMAGE, 0, image, sizeof image);
        run(SAVE, KZ_CARRIED_OUT, "saved in state %d", state);
    }
}

static const struct {
    const char *name;
    void (*test)(void);
} tests[] = {
    {"load: another count of a section is 12, with 48 zero bytes in the record", section_counts},
    {"load: failed counts up to 1,023, and above it 12", image_failed_counts},
    {"load: each bit of a check byte, or of the serial number before it, wrong is 12", check_byte_bits},
    {"load: 88h is in BCC0 alone, and each check byte is judged by itself", check_byte_rules},
    {"load: a serial number of zeros has 88h and 00h for check bytes", zero_serial},
    {"frames and save leave wrong check bytes as they are stored, and a load of what was saved is 12", stored_check_bytes},
    {"load: 10 before 12, and no buffer changed", buffers_first},
    {"load and save give the same image", round_trip},
    {"save: the same image in every state", saved_states},
};

void image_tests(void) {
    size_t n;
    for (n = 0; n < COUNT(tests); n++) {
        test_begin();
        tests[n].test();
        test_end(tests[n].name);
    }
}
