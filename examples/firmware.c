/* A box that plays a tag: the loop of its firmware, with the radio replaced by a script in memory. It prints what it does.
 *
 * On a board three functions are others: receive() waits for the radio, transmit() sends, and draw_random() asks the generator. The rest is
 * what a box needs: four buffers, no heap, and one call for each event.
 *
 * docs/C-FORM.md has the commands that compile it; examples/firmware.txt is what it prints. */
#include <stdio.h>
#include <string.h>

#include "kazdumera.h"

/* ---- the ticket, as an image in flash: samples/login_data_prot/tag.image */

/* Where a page stands in an image: behind the section's count. */
#define PAGE(p) (1 + 4 * (p))

static uint8_t flash[KZ_IMAGE_SIZE] = {
    [0] = 60,                                                                                    /* pages */
    [PAGE(0x00)] = 0x04, 0x51, 0x2C, 0xF1, 0x5A, 0x93, 0xC7, 0x1E, 0x10, 0x48,                   /* serial number, check bytes */
    [PAGE(0x04)] = 'S', 'T', 'A', 'F', 'F', ' ', '0', '7',                                       /* user memory */
    [PAGE(0x29) + 3] = 0x04,                                                                     /* AUTH0: protected from page 04h on, */
    [PAGE(0x2A)] = 0x80, 0x05,                                                                   /* in reading too (PROT) */
    [PAGE(0x30)] = 15, 14, 13, 12, 11, 10, 9, 8, 7, 6, 5, 4, 3, 2, 1, 0,                         /* DataProtKey, its byte 0 last */
    [241] = 3, 0, 0, 0, 0, 0, 0, 0x2C, 0x01, 0,                                                  /* counters: 0, 0 and 300 */
    [251] = 1, 0, 0,                                                                             /* failed count: 0 */
    [254] = 1,                                                                                   /* originality key: zeros */
};

/* ---- the radio: what a gate does to the ticket. Its proof fits the random block below and no other. */

enum event { POWERED, SELECTED, RECEIVED };

struct talk {
    const char *name;
    enum event event;
    size_t count;
    uint8_t frame[35];
};

static const struct talk script[] = {
    {"power on", POWERED, 0, {0}},
    {"READ 04h", RECEIVED, 4, {0x30, 0x04, 0x26, 0xEE}},
    {"select", SELECTED, 0, {0}},
    {"READ 04h", RECEIVED, 4, {0x30, 0x04, 0x26, 0xEE}},
    {"select", SELECTED, 0, {0}},
    {"WRITE 06h", RECEIVED, 8, {0xA2, 0x06, 0x47, 0x41, 0x54, 0x45, 0xBD, 0x38}},
    {"select", SELECTED, 0, {0}},
    {"AUTHENTICATE, key 0", RECEIVED, 4, {0x1A, 0x00, 0x41, 0x76}},
    {"its proof", RECEIVED, 35, {0xAF, 0x2D, 0x6A, 0x06, 0x95, 0x73, 0x65, 0x4F, 0x00, 0xFA, 0x7C, 0x54, 0xDA, 0x2A, 0xAC, 0xF4, 0x52, 0x80,
                                 0xFD, 0x3F, 0xB1, 0x85, 0xE7, 0x63, 0xB6, 0x6F, 0x07, 0x21, 0xCC, 0x8F, 0x7A, 0x0E, 0xA3, 0x44, 0x74}},
    {"READ 04h", RECEIVED, 4, {0x30, 0x04, 0x26, 0xEE}},
    {"WRITE 06h", RECEIVED, 8, {0xA2, 0x06, 0x47, 0x41, 0x54, 0x45, 0xBD, 0x38}},
    {"INCR_CNT 2 by 1", RECEIVED, 8, {0xA5, 0x02, 0x01, 0x00, 0x00, 0x00, 0xC5, 0xA9}},
    {"READ_CNT 2", RECEIVED, 4, {0x39, 0x02, 0x08, 0x5C}},
    {"READ 04h, damaged", RECEIVED, 4, {0x30, 0x04, 0x26, 0xEF}},
    {"select", SELECTED, 0, {0}},
    {"READ_CNT 2", RECEIVED, 4, {0x39, 0x02, 0x08, 0x5C}},
    {"select", SELECTED, 0, {0}},
    {"HLTA", RECEIVED, 4, {0x50, 0x00, 0x57, 0xCD}},
};

/* The next event; 0 when the gate is done. */
static const struct talk *receive(void) {
    static size_t next;
    return next < sizeof script / sizeof script[0] ? &script[next++] : 0;
}

/* A real box draws these, anew for every frame: with a challenge that is known a login could be replayed. */
static void draw_random(uint8_t random[KZ_RANDOM_SIZE]) { memset(random, 0x06, KZ_RANDOM_SIZE); }

/* ---- words */

static const char *words_of(uint8_t number) {
    static const char *const words[] = {
        "carried out", "tag is WAITING", "frame damaged", "code not allowed", "length wrong", "argument wrong", "authentication needed",
        "locked", "proof false", "counter full", "buffer wrong", "limit reached", "image wrong",
    };
    return number < sizeof words / sizeof words[0] ? words[number] : "unknown number";
}

/* The rule that stopped a WRITE, for the crew's log; nothing at any other answer. */
static const char *reason_of(uint64_t answer) {
    static const char *const reasons[] = {
        "", ", by AUTH0", ", by the Random ID bit", ", by its own lock bit", ", by its pair's lock bit", ", by a key lock",
        ", by the configuration lock",
    };
    return kz_answer_reason(answer) <= KZ_REASON_CONFIG_LOCK ? reasons[kz_answer_reason(answer)] : ", by an unknown rule";
}

static const char *state_of(const uint8_t *record) {
    static const char *const states[] = {"WAITING", "ACTIVE", "TRACEABLE", "AUTHENTICATED", "CHALLENGED"};
    return kz_record_state(record) <= KZ_STATE_CHALLENGED ? states[kz_record_state(record)] : "no state";
}

static void say(const char *name, uint8_t number, const uint8_t *record) {
    printf("%-20s %2d %-22s %-14s", name, number, words_of(number), state_of(record));
}

/* The reply goes out as it is: its CRC is already in it. */
static void transmit(uint64_t answer, const uint8_t *reply) {
    unsigned i;
    switch (kz_answer_kind(answer)) {
    case KZ_REPLY_NIBBLE:
        printf("%s %Xh", kz_answer_nibble(answer) == KZ_ACK ? "ACK" : "NAK", kz_answer_nibble(answer));
        break;
    case KZ_REPLY_BYTES:
        for (i = 0; i < kz_answer_bytes(answer); i++) {
            printf("%02x", reply[i]);
        }
        break;
    default:
        printf("silence");
    }
}

/* ---- the loop */

static uint8_t record[KZ_RECORD_SIZE], store[KZ_STORE_SIZE], reply[KZ_REPLY_SIZE];

static void play(const struct talk *talk) {
    uint8_t random[KZ_RANDOM_SIZE];
    uint64_t answer;
    if (talk->event == POWERED) {
        answer = kz_power(record, sizeof record);
    } else if (talk->event == SELECTED) {
        answer = kz_select(record, sizeof record);
    } else {
        draw_random(random);
        answer = kz_frame(record, sizeof record, store, sizeof store, talk->frame, talk->count, random, sizeof random, reply, sizeof reply);
    }
    say(talk->name, kz_answer_number(answer), record);
    transmit(answer, reply);
    printf("%s\n", reason_of(answer));
}

int main(void) {
    const struct talk *talk;
    const uint8_t loaded = kz_load(record, sizeof record, store, sizeof store, flash, sizeof flash);
    say("load from flash", loaded, record);
    printf("counter 2 is %lu\n", (unsigned long)kz_record_counter(record, 2));
    if (loaded != KZ_CARRIED_OUT) {
        return 1;
    }
    while ((talk = receive()) != 0) {
        play(talk);
    }
    say("save to flash", kz_save(record, sizeof record, store, sizeof store, flash, sizeof flash), record);
    printf("counter 2 is %lu, page 06h is \"%.4s\"\n", (unsigned long)kz_record_counter(record, 2), (const char *)flash + PAGE(0x06));
    return 0;
}
