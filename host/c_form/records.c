/* Records that no tag can have, and fields that are not used. */
#include <string.h>

#include "check.h"
#include "sound.h"

#define COUNT(list) (sizeof(list) / sizeof(list)[0])

/* Bytes laid into a sound record in a state. */
struct odd {
    const char *name;
    uint8_t state;
    size_t at;
    uint8_t bytes[4];
    size_t count;
};

/* ---- calls with the record of the moment, on both sides */

static void lend_odd(const struct odd *odd, enum side side) {
    lend_sound(odd->state, side);
    put(RECORD, odd->at, odd->bytes, odd->count);
    expect_nothing();
}

/* Power and Select answer 0 for any record, keep what is stored, and write the fleeting bytes anew. */
static void events(const struct odd *odd) {
    int side;
    for (side = AT_START; side < SIDES; side++) {
        lend_odd(odd, (enum side)side);
        expect_fleeting(KZ_STATE_WAITING);
        run(POWER, KZ_CARRIED_OUT, "power, %s, side %d", odd->name, side);
        lend_odd(odd, (enum side)side);
        expect_fleeting(KZ_STATE_ACTIVE);
        run(SELECT, KZ_CARRIED_OUT, "select, %s, side %d", odd->name, side);
    }
}

static void refused_frame(const struct odd *odd, size_t len, enum side side) {
    lend_odd(odd, side);
    lend(FRAME, len, side);
    frame_of(lent(FRAME), len);
    expect_nothing();
    run(SEND, KZ_BUFFER_WRONG, "frame of %zu bytes, %s, side %d", len, odd->name, (int)side);
}

/* 10 comes before every other number: before 1 of a WAITING tag, and before 2 of a damaged frame. */
static void refused(const struct odd *odd) {
    int side;
    for (side = AT_START; side < SIDES; side++) {
        refused_frame(odd, 4, (enum side)side);
        refused_frame(odd, 0, (enum side)side);
        lend_odd(odd, (enum side)side);
        lend(IMAGE, KZ_IMAGE_SIZE, (enum side)side);
        expect_nothing();
        run(SAVE, KZ_BUFFER_WRONG, "save, %s, side %d", odd->name, side);
    }
}

/* A load doesn't look at the record it is given. */
static void loaded(const struct odd *odd) {
    static const uint8_t zeros[KZ_RECORD_SIZE];
    uint8_t record[KZ_RECORD_SIZE];
    sound_record(record, KZ_STATE_WAITING);
    lend_odd(odd, AT_END);
    expect(RECORD, 0, record, sizeof record);
    expect_fleeting(KZ_STATE_WAITING);
    run(LOAD, KZ_CARRIED_OUT, "load, %s", odd->name);
    lend_odd(odd, AT_END);
    lent(IMAGE)[0] = 61;
    expect_nothing();
    expect(RECORD, 0, zeros, sizeof zeros);
    run(LOAD, KZ_IMAGE_WRONG, "load of a wrong image, %s", odd->name);
}

static void no_tags(const struct odd *odd) {
    events(odd);
    refused(odd);
    loaded(odd);
}

/* A record that a tag can have: READ 04h and save are answered as ever. */
static void accepted(const struct odd *odd) {
    uint8_t image[KZ_IMAGE_SIZE];
    uint64_t answer;
    int side;
    events(odd);
    for (side = AT_START; side < SIDES; side++) {
        lend_odd(odd, (enum side)side);
        answer = expect_frame(odd->state, 4);
        run(SEND, answer, "frame, %s, side %d", odd->name, side);
        lend_odd(odd, (enum side)side);
        memcpy(image, lent(IMAGE), sizeof image);
        lend(IMAGE, KZ_IMAGE_SIZE, (enum side)side);
        expect_nothing();
        expect(IMAGE, 0, image, sizeof image);
        run(SAVE, KZ_CARRIED_OUT, "save, %s, side %d", odd->name, side);
    }
}

/* ---- the records */

static const uint8_t states[] = {KZ_STATE_WAITING, KZ_STATE_ACTIVE, KZ_STATE_TRACEABLE, KZ_STATE_AUTHENTICATED, KZ_STATE_CHALLENGED};

static void counters(void) {
    static const uint8_t above[][4] = {{0, 0, 0, 1}, {0xFF, 0xFF, 0xFF, 0xFF}, {0xFF, 0xFF, 0xFF, 1}, {0, 0, 0, 0x80}};
    size_t place, n, s;
    for (place = 0; place < 3; place++) {
        for (n = 0; n < COUNT(above); n++) {
            for (s = 0; s < COUNT(states); s++) {
                struct odd odd = {"a counter above FFFFFFh", states[s], COUNTERS_AT + 4 * place, {0}, 4};
                memcpy(odd.bytes, above[n], 4);
                no_tags(&odd);
            }
        }
    }
}

static void failed_counts(void) {
    static const uint8_t above[][2] = {{0x00, 0x04}, {0xFF, 0xFF}, {0x00, 0x08}, {0x01, 0x80}};
    size_t n, s;
    for (n = 0; n < COUNT(above); n++) {
        for (s = 0; s < COUNT(states); s++) {
            struct odd odd = {"a failed count above 1,023", states[s], FAILED_AT, {0}, 2};
            memcpy(odd.bytes, above[n], 2);
            no_tags(&odd);
        }
    }
}

static void no_states(void) {
    unsigned state;
    for (state = 5; state <= 255; state++) {
        const struct odd odd = {"a state that doesn't exist", (uint8_t)state, 0, {0}, 0};
        no_tags(&odd);
    }
}

static void no_keys(void) {
    unsigned key;
    for (key = 3; key <= 255; key++) {
        const struct odd odd = {"a key number that doesn't exist", KZ_STATE_CHALLENGED, KEY_NUMBER_AT, {(uint8_t)key}, 1};
        no_tags(&odd);
    }
}

static void keys(void) {
    uint8_t key;
    for (key = 0; key < 3; key++) {
        const struct odd odd = {"a key number that exists", KZ_STATE_CHALLENGED, KEY_NUMBER_AT, {key}, 1};
        accepted(&odd);
    }
}

/* In WAITING the frame is 1, and keeps the byte; in the other states it is carried out, and writes 0 there. */
static void unused_keys(void) {
    unsigned key;
    uint8_t state;
    for (state = KZ_STATE_WAITING; state < KZ_STATE_CHALLENGED; state++) {
        for (key = 0; key <= 255; key++) {
            const struct odd odd = {"a key number that isn't used", state, KEY_NUMBER_AT, {(uint8_t)key}, 1};
            accepted(&odd);
        }
    }
}

static const struct {
    const char *name;
    void (*test)(void);
} tests[] = {
    {"counters above FFFFFFh in each place", counters},
    {"failed counts above 1,023", failed_counts},
    {"state bytes 5 to 255", no_states},
    {"key numbers 3 to 255 while CHALLENGED", no_keys},
    {"key numbers 0 to 2 while CHALLENGED", keys},
    {"every key number in the states that don't use it", unused_keys},
};

void record_tests(void) {
    size_t n;
    for (n = 0; n < COUNT(tests); n++) {
        test_begin();
        tests[n].test();
        test_end(tests[n].name);
    }
}
