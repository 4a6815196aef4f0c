/* Lengths that a library would take for others if it kept only their low 8, 16 or 32 bits. */
#define _DEFAULT_SOURCE
#include <string.h>
#include <sys/mman.h>

#include "check.h"
#include "sound.h"

static const size_t beyond[] = {(size_t)1 << 8, (size_t)1 << 16, (size_t)1 << 32};

/* Room for the longest of them. Its pages cost nothing until they are touched. */
static const size_t room_size = ((size_t)1 << 32) + 4096;
static uint8_t *room;

static void waiting(void) { expect_fleeting(KZ_STATE_WAITING); }

static void active(void) { expect_fleeting(KZ_STATE_ACTIVE); }

static void zero_record(void) {
    static const uint8_t zeros[KZ_RECORD_SIZE];
    expect(RECORD, 0, zeros, sizeof zeros);
}

/* Calls in which one buffer lies in the room, a power of two longer than low. What is expected of the others is given, if anything is. */
static void longer(enum call call, int buffer, size_t low, uint64_t answer, void (*expected)(void)) {
    uint8_t before[4096];
    size_t n;
    for (n = 0; n < 3; n++) {
        lend_sound(KZ_STATE_ACTIVE, AT_END);
        memcpy(room, lent(buffer), lent_len(buffer));
        memcpy(before, room, sizeof before);
        lend_own(buffer, room, low + beyond[n]);
        expect_nothing();
        if (expected) {
            expected();
        }
        run(call, answer, "call %d, buffer %d of %zu bytes", (int)call, buffer, low + beyond[n]);
        if (answer == KZ_BUFFER_WRONG) {
            check(memcmp(room, before, sizeof before) == 0, "call %d changes buffer %d of %zu bytes", (int)call, buffer, low + beyond[n]);
        }
    }
}

static void frames(void) {
    longer(SEND, RECORD, KZ_RECORD_SIZE, KZ_BUFFER_WRONG, NULL);
    longer(SEND, STORE, KZ_STORE_SIZE, KZ_BUFFER_WRONG, NULL);
    longer(SEND, RANDOM, KZ_RANDOM_SIZE, KZ_BUFFER_WRONG, NULL);
    longer(SEND, FRAME, 4, KZ_FRAME_DAMAGED | 1u << 8 | 1u << 16, waiting);
    /* a longer reply buffer is right; of its low bits it would be too short */
    longer(SEND, REPLY, 1, UINT64_C(18) << 32 | 2u << 8, active);
}

static void images(void) {
    longer(LOAD, RECORD, KZ_RECORD_SIZE, KZ_BUFFER_WRONG, NULL);
    longer(LOAD, STORE, KZ_STORE_SIZE, KZ_BUFFER_WRONG, NULL);
    longer(LOAD, IMAGE, KZ_IMAGE_SIZE, KZ_IMAGE_WRONG, zero_record);
    longer(SAVE, RECORD, KZ_RECORD_SIZE, KZ_BUFFER_WRONG, NULL);
    longer(SAVE, STORE, KZ_STORE_SIZE, KZ_BUFFER_WRONG, NULL);
    /* 513 bytes and more are right, 257 would be too few */
    longer(SAVE, IMAGE, 257, KZ_CARRIED_OUT, NULL);
}

void long_length_tests(void) {
    test_begin();
    room = mmap(NULL, room_size, PROT_READ | PROT_WRITE, MAP_PRIVATE | MAP_ANONYMOUS | MAP_NORESERVE, -1, 0);
    check(room != MAP_FAILED, "no room for a buffer of 4 GiB");
    if (room != MAP_FAILED) {
        longer(POWER, RECORD, KZ_RECORD_SIZE, KZ_BUFFER_WRONG, NULL);
        longer(SELECT, RECORD, KZ_RECORD_SIZE, KZ_BUFFER_WRONG, NULL);
        frames();
        images();
        munmap(room, room_size);
    }
    test_end("lengths that are right, or wrong, in their low 8, 16 or 32 bits alone");
}
