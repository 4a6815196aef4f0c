/* Why a WRITE was refused: each rule, the first where several bar the page, and no reason at any other answer. */
#include <string.h>

#include "check.h"
#include "crc.h"
#include "sound.h"

#define COUNT(list) (sizeof(list) / sizeof(list)[0])
/* The nibble 0h, which refusals by 3 to 8 send. */
#define NAK_0 (1u << 8)

/* What bars pages of a sound tag. */
struct bars {
    uint8_t auth0;
    uint8_t own, pair; /* every lock bit of that kind, or none */
    uint8_t lock_keys; /* LOCK_KEYS */
    uint8_t cfg_1;     /* byte 0 of CFG_1: 40h is the configuration lock */
};

/* A WRITE of the bytes first, 0, 0 and AUTH0: on page 29h only first can change a setting. */
struct refused {
    const char *name;
    struct bars bars;
    uint8_t state, page, first;
    uint8_t number, reason;
};

static const struct refused refused[] = {
    {"AUTH0", {0x04, 0, 0, 0, 0x0C}, KZ_STATE_ACTIVE, 0x04, 0, 6, KZ_REASON_AUTH0},
    {"AUTH0 in TRACEABLE", {0x3B, 0, 0, 0, 0x0C}, KZ_STATE_TRACEABLE, 0x3B, 0, 6, KZ_REASON_AUTH0},
    {"Random ID bit", {0x3C, 0, 0, 0, 0x0C}, KZ_STATE_ACTIVE, 0x29, 1, 6, KZ_REASON_RANDOM_ID},
    {"lock byte 0", {0x3C, 1, 0, 0, 0x0C}, KZ_STATE_ACTIVE, 0x03, 0, 7, KZ_REASON_OWN_LOCK},
    {"lock byte 1", {0x3C, 1, 0, 0, 0x0C}, KZ_STATE_AUTHENTICATED, 0x0F, 0, 7, KZ_REASON_OWN_LOCK},
    {"lock byte 2", {0x3C, 0, 1, 0, 0x0C}, KZ_STATE_ACTIVE, 0x10, 0, 7, KZ_REASON_PAIR_LOCK},
    {"lock byte 3", {0x3C, 0, 1, 0, 0x0C}, KZ_STATE_AUTHENTICATED, 0x27, 0, 7, KZ_REASON_PAIR_LOCK},
    {"LOCK_AES_KEY0", {0x3C, 0, 0, 0x40, 0x0C}, KZ_STATE_ACTIVE, 0x30, 0, 7, KZ_REASON_KEY_LOCK},
    {"LOCK_AES_KEY1", {0x3C, 0, 0, 0x80, 0x0C}, KZ_STATE_AUTHENTICATED, 0x37, 0, 7, KZ_REASON_KEY_LOCK},
    {"BLOCK_LOCK_KEY", {0x3C, 0, 0, 0x20, 0x0C}, KZ_STATE_ACTIVE, 0x2D, 0, 7, KZ_REASON_KEY_LOCK},
    {"LOCK_USR_CFG", {0x3C, 0, 0, 0, 0x4C}, KZ_STATE_ACTIVE, 0x2A, 0, 7, KZ_REASON_CONFIG_LOCK},
    {"LOCK_USR_CFG, page 29h", {0x3C, 0, 0, 0, 0x4C}, KZ_STATE_AUTHENTICATED, 0x29, 1, 7, KZ_REASON_CONFIG_LOCK},
    {"AUTH0 and Random ID bit", {0x29, 0, 0, 0, 0x0C}, KZ_STATE_ACTIVE, 0x29, 1, 6, KZ_REASON_AUTH0},
    {"AUTH0 and own lock bit", {0x00, 1, 0, 0, 0x0C}, KZ_STATE_ACTIVE, 0x03, 0, 6, KZ_REASON_AUTH0},
    {"AUTH0 and pair lock bit", {0x00, 0, 1, 0, 0x0C}, KZ_STATE_TRACEABLE, 0x11, 0, 6, KZ_REASON_AUTH0},
    {"AUTH0 and key lock", {0x30, 0, 0, 0xC0, 0x0C}, KZ_STATE_ACTIVE, 0x34, 0, 6, KZ_REASON_AUTH0},
    {"AUTH0 and BLOCK_LOCK_KEY", {0x2D, 0, 0, 0x20, 0x0C}, KZ_STATE_ACTIVE, 0x2D, 0, 6, KZ_REASON_AUTH0},
    {"AUTH0 and configuration lock", {0x2A, 0, 0, 0, 0x4C}, KZ_STATE_TRACEABLE, 0x2A, 0, 6, KZ_REASON_AUTH0},
    {"Random ID bit and configuration lock", {0x3C, 0, 0, 0, 0x4C}, KZ_STATE_ACTIVE, 0x29, 1, 6, KZ_REASON_RANDOM_ID},
    {"AUTH0, Random ID bit and configuration lock", {0x29, 0, 0, 0, 0x4C}, KZ_STATE_ACTIVE, 0x29, 1, 6, KZ_REASON_AUTH0},
};

/* Everything barred, reading and counter 2 too. */
static const struct bars closed = {0x00, 1, 1, 0xE0, 0xC0};

/* Frames to such a tag without their CRC, and the whole answer. */
static const struct {
    const char *name;
    uint8_t state;
    uint8_t bytes[6];
    size_t count;
    uint64_t answer;
} others[] = {
    {"READ", KZ_STATE_ACTIVE, {0x30, 0x04}, 2, KZ_AUTHENTICATION_NEEDED | NAK_0},
    {"FAST_READ", KZ_STATE_TRACEABLE, {0x3A, 0x04, 0x04}, 3, KZ_AUTHENTICATION_NEEDED | NAK_0},
    {"READ_CNT", KZ_STATE_ACTIVE, {0x39, 0x02}, 2, KZ_AUTHENTICATION_NEEDED | NAK_0},
    {"INCR_CNT", KZ_STATE_TRACEABLE, {0xA5, 0x02, 0, 0, 0, 0}, 6, KZ_AUTHENTICATION_NEEDED | NAK_0},
    {"WRITE 01h", KZ_STATE_ACTIVE, {0xA2, 0x01, 0, 0, 0, 0}, 6, KZ_ARGUMENT_WRONG | NAK_0},
    {"WRITE 3Ch", KZ_STATE_AUTHENTICATED, {0xA2, 0x3C, 0, 0, 0, 0}, 6, KZ_ARGUMENT_WRONG | NAK_0},
    {"WRITE with a byte too few", KZ_STATE_ACTIVE, {0xA2, 0x04, 0, 0, 0}, 5, KZ_LENGTH_WRONG | NAK_0},
    {"WRITE while CHALLENGED", KZ_STATE_CHALLENGED, {0xA2, 0x04, 0, 0, 0, 0}, 6, KZ_CODE_NOT_ALLOWED | NAK_0},
    {"INCR_CNT past FFFFFFh", KZ_STATE_AUTHENTICATED, {0xA5, 0x02, 1, 0, 0, 0}, 6, KZ_COUNTER_FULL | NAK_0 | 4u << 16},
};

/* ---- tags and frames */

static void lend_barred(const struct bars *bars, uint8_t state, enum side side) {
    const uint8_t own[2] = {bars->own ? 0xF8 : 0, bars->own ? 0xFF : 0}, pair[2] = {bars->pair ? 0xFF : 0, bars->pair ? 0x0F : 0};
    lend_sound(state, side);
    put(STORE, 4 * 0x02 + 2, own, sizeof own);
    put(STORE, 4 * 0x28, pair, sizeof pair);
    put(STORE, 4 * 0x29 + 3, &bars->auth0, 1);
    put(STORE, 4 * 0x2A, &bars->cfg_1, 1);
    put(STORE, 4 * 0x2D, &bars->lock_keys, 1);
}

static void lend_frame(const uint8_t *bytes, size_t count, enum side side) {
    lend(FRAME, count + 2, side);
    put(FRAME, 0, bytes, count);
    put_crc(lent(FRAME), count);
}

static void expect_end(void) {
    expect_nothing();
    expect_fleeting(KZ_STATE_WAITING);
}

/* ---- tests */

/* The refusal, and behind it the same WRITE to the tag that it left WAITING. */
static void refuse(const struct refused *r, enum side side) {
    const uint8_t write[6] = {0xA2, r->page, r->first, 0, 0, r->bars.auth0};
    uint64_t answer;
    lend_barred(&r->bars, r->state, side);
    lend_frame(write, sizeof write, side);
    expect_end();
    answer = run(SEND, r->number | NAK_0 | (uint64_t)r->reason << 24, "%s, side %d", r->name, (int)side);
    check(kz_answer_reason(answer) == r->reason, "%s: the reason is read as %d", r->name, kz_answer_reason(answer));
    expect_nothing();
    run(SEND, KZ_TAG_WAITING, "%s, the frame behind it, side %d", r->name, (int)side);
}

static void each_rule(void) {
    size_t n;
    for (n = 0; n < COUNT(refused); n++) {
        refuse(&refused[n], AT_START);
        refuse(&refused[n], AT_END);
    }
}

static void no_reason(void) {
    size_t n;
    for (n = 0; n < COUNT(others); n++) {
        lend_barred(&closed, others[n].state, AT_END);
        lend_frame(others[n].bytes, others[n].count, AT_END);
        expect_end();
        run(SEND, others[n].answer, "%s", others[n].name);
    }
}

/* A WRITE that AUTH0 and a lock bar, but other numbers come before: 1, 2 and 10. And one that no rule bars. */
static void other_writes(void) {
    static const uint8_t write[6] = {0xA2, 0x04, 0, 0, 0, 0}, open[6] = {0xA2, 0x2B, 1, 2, 3, 4};
    lend_barred(&closed, KZ_STATE_WAITING, AT_END);
    lend_frame(write, sizeof write, AT_END);
    expect_nothing();
    run(SEND, KZ_TAG_WAITING, "a WRITE in WAITING");
    lend_barred(&closed, KZ_STATE_ACTIVE, AT_END);
    lend_frame(write, sizeof write, AT_END);
    lent(FRAME)[7] ^= 1;
    expect_end();
    run(SEND, KZ_FRAME_DAMAGED | NAK_0 | 1u << 16, "a damaged WRITE");
    lend_barred(&closed, KZ_STATE_ACTIVE, AT_END);
    lend_frame(write, sizeof write, AT_END);
    lend(REPLY, KZ_REPLY_SIZE - 1, AT_END);
    expect_nothing();
    run(SEND, KZ_BUFFER_WRONG, "a WRITE with a short reply buffer");
    lend_barred(&closed, KZ_STATE_AUTHENTICATED, AT_END);
    lend_frame(open, sizeof open, AT_END);
    expect_nothing();
    expect_fleeting(KZ_STATE_AUTHENTICATED);
    expect(STORE, 4 * 0x2B, open + 2, 4);
    run(SEND, KZ_CARRIED_OUT | 1u << 8 | KZ_ACK << 16, "a WRITE that no rule bars");
}

static const struct {
    const char *name;
    void (*test)(void);
} tests[] = {
    {"why a WRITE was refused: each rule, the first of several, and no reason in the answer behind it", each_rule},
    {"no reason for other commands, nor for a WRITE with another number", no_reason},
    {"no reason for a WRITE with number 0, 1, 2 or 10", other_writes},
};

void reason_tests(void) {
    size_t n;
    for (n = 0; n < COUNT(tests); n++) {
        test_begin();
        tests[n].test();
        test_end(tests[n].name);
    }
}
