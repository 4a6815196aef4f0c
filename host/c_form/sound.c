#include <string.h>

#include "crc.h"
#include "sound.h"

static const uint8_t zeros[KZ_RECORD_SIZE];

void sound_record(uint8_t *record, uint8_t state) {
    /* counters 030201h, 060504h and FFFFFFh, failed count 1,023 */
    static const uint8_t head[STATE_AT] = {1, 2, 3, 0, 4, 5, 6, 0, 0xFF, 0xFF, 0xFF, 0, 0xFF, 0x03};
    uint8_t i;
    memcpy(record, head, sizeof head);
    record[STATE_AT] = state;
    record[KEY_NUMBER_AT] = state == KZ_STATE_CHALLENGED ? KZ_KEY_UID_RETR : 0x77;
    for (i = 0; i < 16; i++) {
        record[KEY_AT + i] = (uint8_t)(0x10 + i);
        record[CHALLENGE_AT + i] = (uint8_t)(0xC0 + i);
    }
}

void sound_store(uint8_t *store) {
    /* CFG_0 with AUTH0 3Ch, and CFG_1 with counter 2 open */
    static const uint8_t settings[8] = {0, 0, 0, 0x3C, 0x0C, 0x05, 0, 0};
    unsigned i;
    for (i = 0; i < KZ_STORE_SIZE; i++) {
        store[i] = (uint8_t)(1 + 7 * i);
    }
    store[3] = 0x88 ^ store[0] ^ store[1] ^ store[2];
    store[8] = store[4] ^ store[5] ^ store[6] ^ store[7];
    memset(store + 10, 0, 6);
    memset(store + 4 * 0x28, 0, 4);
    memcpy(store + 4 * 0x29, settings, sizeof settings);
    memset(store + 4 * 0x2D, 0, 4);
}

void sound_image(uint8_t *image) {
    uint8_t record[KZ_RECORD_SIZE];
    int n;
    sound_record(record, KZ_STATE_WAITING);
    image[0] = 60;
    sound_store(image + 1);
    image[241] = 3;
    for (n = 0; n < 3; n++) {
        memcpy(image + 242 + 3 * n, record + 4 * n, 3);
    }
    image[251] = 1;
    memcpy(image + 252, record + FAILED_AT, 2);
    image[254] = 1;
    memcpy(image + 255, record + KEY_AT, 16);
}

void frame_of(uint8_t *frame, size_t len) {
    size_t i;
    for (i = 0; i < len; i++) {
        frame[i] = (uint8_t)(0x80 + i);
    }
    if (len > 0) {
        frame[0] = len == 4 ? 0x30 : 0x60;
    }
    if (len == 4) {
        frame[1] = 0x04;
    }
    if (len >= 2) {
        put_crc(frame, len - 2);
    }
}

void put_sound(uint8_t state) {
    uint8_t record[KZ_RECORD_SIZE], store[KZ_STORE_SIZE], image[KZ_IMAGE_SIZE];
    sound_record(record, state);
    sound_store(store);
    sound_image(image);
    put(RECORD, 0, record, sizeof record);
    put(STORE, 0, store, sizeof store);
    put(IMAGE, 0, image, sizeof image);
    frame_of(lent(FRAME), lent_len(FRAME));
}

void lend_sound(uint8_t state, enum side side) {
    lend(RECORD, KZ_RECORD_SIZE, side);
    lend(STORE, KZ_STORE_SIZE, side);
    lend(FRAME, 4, side);
    lend(RANDOM, KZ_RANDOM_SIZE, side);
    lend(REPLY, KZ_REPLY_SIZE, side);
    lend(IMAGE, KZ_IMAGE_SIZE, side);
    put_sound(state);
}

void expect_fleeting(uint8_t state) {
    expect(RECORD, STATE_AT, &state, 1);
    expect(RECORD, KEY_NUMBER_AT, zeros, 1);
    expect(RECORD, CHALLENGE_AT, zeros, 16);
}

/* A refusal: the number with its NAK, and WAITING. */
static uint64_t expect_refusal(uint64_t number) {
    const uint64_t nibble = number == 2 ? 0x1 : 0x0;
    expect_fleeting(KZ_STATE_WAITING);
    return number | 1u << 8 | nibble << 16;
}

/* READ 04h: four pages with their CRC. */
static uint64_t expect_pages(uint8_t state) {
    uint8_t pages[18];
    memcpy(pages, lent(STORE) + 16, 16);
    put_crc(pages, 16);
    expect(REPLY, 0, pages, sizeof pages);
    expect_fleeting(state);
    return UINT64_C(18) << 32 | 2u << 8;
}

uint64_t expect_frame(uint8_t state, size_t len) {
    const int lent_right = lent_len(RECORD) == KZ_RECORD_SIZE && lent_len(STORE) == KZ_STORE_SIZE && lent_len(RANDOM) == KZ_RANDOM_SIZE;
    expect_nothing();
    if (!lent_right || lent_len(REPLY) < KZ_REPLY_SIZE) {
        return KZ_BUFFER_WRONG;
    }
    if (state == KZ_STATE_WAITING) {
        return KZ_TAG_WAITING;
    }
    if (len < 3 || len > 64) {
        return expect_refusal(KZ_FRAME_DAMAGED);
    }
    if (len != 4 || state == KZ_STATE_CHALLENGED) {
        return expect_refusal(KZ_CODE_NOT_ALLOWED);
    }
    return expect_pages(state);
}
