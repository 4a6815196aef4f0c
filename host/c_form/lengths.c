/* Every wrong length round each limit, of every buffer of every call, with every other. */
#include <string.h>

#include "check.h"
#include "sound.h"

/* A buffer and the lengths it is lent with. */
struct axis {
    int buffer;
    size_t lengths[9];
    size_t count;
};

static const struct axis frame_axes[] = {
    {RECORD, {0, 1, 47, 48, 49, 96}, 6},
    {STORE, {0, 1, 239, 240, 241, 480}, 6},
    {FRAME, {0, 1, 2, 3, 4, 63, 64, 65, 66}, 9},
    {RANDOM, {0, 1, 15, 16, 17, 32}, 6},
    {REPLY, {0, 1, 241, 242, 243, 300}, 6},
};

static const struct axis image_axes[] = {
    {RECORD, {0, 1, 47, 48, 49, 96}, 6},
    {STORE, {0, 1, 239, 240, 241, 480}, 6},
    {IMAGE, {0, 1, 270, 271, 272, 542}, 6},
};

#define COUNT(list) (sizeof(list) / sizeof(list)[0])

/* The next combination of lengths, the first axis turning fastest; 0 after the last. */
static int next(const struct axis *axes, size_t *at, size_t count) {
    size_t n;
    for (n = 0; n < count; n++) {
        if (++at[n] < axes[n].count) {
            return 1;
        }
        at[n] = 0;
    }
    return 0;
}

static void lend_axes(const struct axis *axes, const size_t *at, size_t count, enum side side) {
    size_t n;
    for (n = 0; n < count; n++) {
        lend(axes[n].buffer, axes[n].lengths[at[n]], side);
    }
}

/* ---- frames */

static void send(uint8_t state, enum side side) {
    const uint64_t answer = expect_frame(state, lent_len(FRAME));
    run(SEND, answer, "frame in state %d, record %zu, store %zu, frame %zu, random %zu, reply %zu, side %d", state, lent_len(RECORD),
        lent_len(STORE), lent_len(FRAME), lent_len(RANDOM), lent_len(REPLY), (int)side);
}

static void frame_lengths(uint8_t state) {
    size_t at[COUNT(frame_axes)] = {0};
    int side;
    do {
        for (side = AT_START; side < SIDES; side++) {
            lend_axes(frame_axes, at, COUNT(frame_axes), (enum side)side);
            lend(IMAGE, 0, (enum side)side);
            put_sound(state);
            send(state, (enum side)side);
        }
    } while (next(frame_axes, at, COUNT(frame_axes)));
}

/* Every length up to 300 of one buffer, the others right. */
static void frame_sweep(int buffer) {
    size_t len;
    int side;
    for (len = 0; len <= 300; len++) {
        for (side = AT_START; side < SIDES; side++) {
            lend_sound(KZ_STATE_ACTIVE, (enum side)side);
            lend(buffer, len, (enum side)side);
            put_sound(KZ_STATE_ACTIVE);
            send(KZ_STATE_ACTIVE, (enum side)side);
        }
    }
}

/* ---- images */

static int lent_wrong(void) { return lent_len(RECORD) != KZ_RECORD_SIZE || lent_len(STORE) != KZ_STORE_SIZE; }

/* What a load of a sound image must leave. */
static void expect_loaded(void) {
    uint8_t record[KZ_RECORD_SIZE], store[KZ_STORE_SIZE];
    sound_record(record, KZ_STATE_WAITING);
    sound_store(store);
    expect(RECORD, 0, record, sizeof record);
    expect(STORE, 0, store, sizeof store);
    expect_fleeting(KZ_STATE_WAITING);
}

/* Record and store hold guard bytes before it: a load asks nothing of them. */
static void load(enum side side) {
    static const uint8_t zeros[KZ_RECORD_SIZE];
    uint8_t image[KZ_IMAGE_SIZE];
    uint64_t answer = KZ_BUFFER_WRONG;
    sound_image(image);
    put(IMAGE, 0, image, sizeof image);
    expect_nothing();
    if (!lent_wrong() && lent_len(IMAGE) == KZ_IMAGE_SIZE) {
        answer = KZ_CARRIED_OUT;
        expect_loaded();
    } else if (!lent_wrong()) {
        answer = KZ_IMAGE_WRONG;
        expect(RECORD, 0, zeros, sizeof zeros);
    }
    run(LOAD, answer, "load with record %zu, store %zu, image %zu, side %d", lent_len(RECORD), lent_len(STORE), lent_len(IMAGE), (int)side);
}

/* The image buffer holds guard bytes before it, and behind its first 271 bytes afterwards too. */
static void save(enum side side) {
    uint8_t record[KZ_RECORD_SIZE], store[KZ_STORE_SIZE], image[KZ_IMAGE_SIZE];
    uint64_t answer = KZ_BUFFER_WRONG;
    sound_record(record, KZ_STATE_AUTHENTICATED);
    sound_store(store);
    sound_image(image);
    put(RECORD, 0, record, sizeof record);
    put(STORE, 0, store, sizeof store);
    expect_nothing();
    if (!lent_wrong() && lent_len(IMAGE) >= KZ_IMAGE_SIZE) {
        answer = KZ_CARRIED_OUT;
        expect(IMAGE, 0, image, sizeof image);
    }
    run(SAVE, answer, "save with record %zu, store %zu, image %zu, side %d", lent_len(RECORD), lent_len(STORE), lent_len(IMAGE), (int)side);
}

static void image_lengths(void (*call)(enum side side)) {
    size_t at[COUNT(image_axes)] = {0};
    int side;
    do {
        for (side = AT_START; side < SIDES; side++) {
            lend_axes(image_axes, at, COUNT(image_axes), (enum side)side);
            call((enum side)side);
        }
    } while (next(image_axes, at, COUNT(image_axes)));
}

static void image_sweep(void (*call)(enum side side), int buffer) {
    size_t len;
    int side;
    for (len = 0; len <= 300; len++) {
        for (side = AT_START; side < SIDES; side++) {
            lend(RECORD, KZ_RECORD_SIZE, (enum side)side);
            lend(STORE, KZ_STORE_SIZE, (enum side)side);
            lend(IMAGE, KZ_IMAGE_SIZE, (enum side)side);
            lend(buffer, len, (enum side)side);
            call((enum side)side);
        }
    }
}

/* ---- events */

static void event_lengths(enum call call, uint8_t state) {
    size_t len;
    int side;
    for (len = 0; len <= 300; len++) {
        for (side = AT_START; side < SIDES; side++) {
            lend(RECORD, len, (enum side)side);
            put_sound(KZ_STATE_CHALLENGED);
            expect_nothing();
            if (len == KZ_RECORD_SIZE) {
                expect_fleeting(state);
            }
            run(call, len == KZ_RECORD_SIZE ? KZ_CARRIED_OUT : KZ_BUFFER_WRONG, "event with record %zu, side %d", len, side);
        }
    }
}

static void all_frame_lengths(void) {
    static const char *const names[] = {"lengths of a frame's five buffers in WAITING, every combination", "the same in ACTIVE",
                                        "the same in CHALLENGED"};
    static const uint8_t states[] = {KZ_STATE_WAITING, KZ_STATE_ACTIVE, KZ_STATE_CHALLENGED};
    size_t n;
    for (n = 0; n < COUNT(states); n++) {
        test_begin();
        frame_lengths(states[n]);
        test_end(names[n]);
    }
    test_begin();
    for (n = 0; n < COUNT(frame_axes); n++) {
        frame_sweep(frame_axes[n].buffer);
    }
    test_end("each buffer of a frame with every length up to 300");
}

static void all_image_lengths(const char *combined, const char *swept, void (*call)(enum side side)) {
    size_t n;
    test_begin();
    image_lengths(call);
    test_end(combined);
    test_begin();
    for (n = 0; n < COUNT(image_axes); n++) {
        image_sweep(call, image_axes[n].buffer);
    }
    test_end(swept);
}

void length_tests(void) {
    test_begin();
    event_lengths(POWER, KZ_STATE_WAITING);
    test_end("power: every record length up to 300");
    test_begin();
    event_lengths(SELECT, KZ_STATE_ACTIVE);
    test_end("select: every record length up to 300");
    all_frame_lengths();
    all_image_lengths("lengths of a load's three buffers, every combination", "each buffer of a load with every length up to 300", load);
    all_image_lengths("lengths of a save's three buffers, every combination", "each buffer of a save with every length up to 300", save);
}
