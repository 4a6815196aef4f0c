/* The cases of document 01 and those beside them, read from the text that cases.py makes of tools/cases.py and tools/logins.py. A line
 * each: its first word says what it is, '-' stands for no bytes. */
#include <stdio.h>
#include <stdlib.h>
#include <string.h>

#include "check.h"
#include "sound.h"

enum { MOST_WORDS = 7, LONGEST_LINE = 2048, MOST_BYTES = 512 };

struct bytes {
    uint8_t at[MOST_BYTES];
    size_t count;
};

static char name[200];
static unsigned line_number, begun, ended;

/* ---- the text */

static struct bytes bytes_of(const char *hex) {
    struct bytes b = {{0}, 0};
    unsigned value;
    while (b.count < MOST_BYTES && sscanf(hex + 2 * b.count, "%2x", &value) == 1) {
        b.at[b.count++] = (uint8_t)value;
    }
    check(strcmp(hex, "-") == 0 || strlen(hex) == 2 * b.count, "%s, line %u: '%.20s' is not hex", name, line_number, hex);
    return b;
}

static int words_of(char *line, char *words[MOST_WORDS]) {
    int count = 0;
    char *word;
    for (word = strtok(line, " \n"); word && count < MOST_WORDS; word = strtok(NULL, " \n")) {
        words[count++] = word;
    }
    return count;
}

/* ---- lines */

static uint8_t state_of(const char *word) {
    static const char *const states[] = {"WAITING", "ACTIVE", "TRACEABLE", "AUTHENTICATED", "CHALLENGED"};
    uint8_t state = 0;
    while (state < 5 && strcmp(word, states[state]) != 0) {
        state++;
    }
    /* the cases have states that don't exist, by number */
    return state < 5 ? state : (uint8_t)atoi(word);
}

/* image BYTES: a tag is loaded. The store and the record hold guard bytes before it. */
static void begin(char *words[]) {
    const struct bytes image = bytes_of(words[1]);
    lend(RECORD, KZ_RECORD_SIZE, AT_END);
    lend(STORE, KZ_STORE_SIZE, AT_END);
    lend(REPLY, KZ_REPLY_SIZE, AT_END);
    lend(IMAGE, image.count, AT_END);
    put(IMAGE, 0, image.at, image.count);
    expect_nothing();
    expect_any(RECORD);
    expect_any(STORE);
    run(LOAD, KZ_CARRIED_OUT, "%s, its image", name);
    check(kz_record_state(lent(RECORD)) == KZ_STATE_WAITING, "%s: it is loaded in state %d", name, kz_record_state(lent(RECORD)));
}

/* record STATE KEY CHALLENGE: where no loading leaves a tag. */
static void enter(char *words[]) {
    const struct bytes challenge = bytes_of(words[3]);
    lent(RECORD)[STATE_AT] = state_of(words[1]);
    lent(RECORD)[KEY_NUMBER_AT] = (uint8_t)atoi(words[2]);
    put(RECORD, CHALLENGE_AT, challenge.at, challenge.count);
}

static void event(enum call call, uint8_t state) {
    expect_nothing();
    expect_fleeting(state);
    run(call, KZ_CARRIED_OUT, "%s, line %u", name, line_number);
}

/* A reply of this kind, as an answer without its number. Bytes are expected in the reply buffer, and nothing else there. */
static uint64_t expect_reply(const char *kind, const char *said) {
    struct bytes reply;
    if (strcmp(kind, "bytes") == 0) {
        reply = bytes_of(said);
        expect(REPLY, 0, reply.at, reply.count);
        return (uint64_t)reply.count << 32 | 2u << 8;
    }
    return strcmp(kind, "nibble") == 0 ? (uint64_t)strtoul(said, NULL, 16) << 16 | 1u << 8 : 0;
}

/* The fleeting part after a frame that was carried out: behind part 1 of a login the key number and the challenge, else zeros. */
static void check_fleeting(const uint8_t *record) {
    static const uint8_t zeros[KZ_RANDOM_SIZE];
    const int challenged = lent_len(FRAME) > 1 && lent(FRAME)[0] == 0x1A;
    const uint8_t key = challenged ? lent(FRAME)[1] : 0;
    check((kz_record_state(record) == KZ_STATE_CHALLENGED) == challenged, "%s, line %u: state %d", name, line_number, kz_record_state(record));
    check(kz_record_key_number(record) == key, "%s, line %u: key number %d", name, line_number, kz_record_key_number(record));
    check(memcmp(record + CHALLENGE_AT, challenged ? lent(RANDOM) : zeros, sizeof zeros) == 0, "%s, line %u: another challenge", name,
          line_number);
}

/* A frame that is carried out may change the record and the store. The case's end says to what. */
static void carry_out(uint64_t answer) {
    expect_any(RECORD);
    expect_any(STORE);
    run(SEND, answer, "%s, line %u", name, line_number);
    check_fleeting(lent(RECORD));
}

/* Only a false proof may change something stored, and that is the failed count. */
static void refuse(uint64_t answer) {
    uint8_t count[2];
    unsigned failed = kz_record_failed(lent(RECORD)) + 1u;
    expect_fleeting(KZ_STATE_WAITING);
    if (kz_answer_number(answer) == KZ_PROOF_FALSE && (lent(STORE)[4 * 0x2A + 2] || lent(STORE)[4 * 0x2A + 3] & 3)) {
        count[0] = (uint8_t)failed;
        count[1] = (uint8_t)(failed >> 8);
        expect(RECORD, FAILED_AT, count, 2);
    }
    run(SEND, answer, "%s, line %u", name, line_number);
}

/* frame BYTES RANDOM NUMBER REASON KIND REPLY */
static void frame(char *words[]) {
    const struct bytes sent = bytes_of(words[1]), random = bytes_of(words[2]);
    const unsigned number = (unsigned)atoi(words[3]), reason = (unsigned)atoi(words[4]);
    uint64_t answer;
    lend(FRAME, sent.count, AT_END);
    put(FRAME, 0, sent.at, sent.count);
    lend(RANDOM, random.count, AT_END);
    put(RANDOM, 0, random.at, random.count);
    expect_nothing();
    answer = number | reason << 24 | expect_reply(words[5], words[6]);
    if (number == KZ_CARRIED_OUT) {
        carry_out(answer);
    } else if (number == KZ_TAG_WAITING) {
        run(SEND, answer, "%s, line %u", name, line_number);
    } else {
        refuse(answer);
    }
}

/* The accessors give what the image has. */
static void check_fields(const uint8_t *image) {
    unsigned n;
    for (n = 0; n < 3; n++) {
        const uint8_t *c = image + 242 + 3 * n;
        check(kz_record_counter(lent(RECORD), n) == (c[0] | (uint32_t)c[1] << 8 | (uint32_t)c[2] << 16), "%s: counter %u", name, n);
    }
    check(kz_record_failed(lent(RECORD)) == (image[252] | image[253] << 8), "%s: the failed count", name);
}

/* end STATE BYTES: the state that is left, where the case says it, and the image that is saved. */
static void end(char *words[]) {
    const struct bytes image = bytes_of(words[2]);
    const uint8_t state = kz_record_state(lent(RECORD));
    check(strcmp(words[1], "-") == 0 || state == state_of(words[1]), "%s: the state is %d", name, state);
    check_fields(image.at);
    lend(IMAGE, KZ_IMAGE_SIZE, AT_END);
    expect_nothing();
    expect(IMAGE, 0, image.at, KZ_IMAGE_SIZE);
    run(SAVE, KZ_CARRIED_OUT, "%s, its end", name);
    test_end(name);
    ended++;
}

static int played(char *words[], int count) {
    const char *kind = words[0];
    if (strcmp(kind, "case") == 0 && count == 2) {
        test_begin();
        begun++;
        snprintf(name, sizeof name, "case %.180s", words[1]);
    } else if (strcmp(kind, "image") == 0 && count == 2) {
        begin(words);
    } else if (strcmp(kind, "record") == 0 && count == 4) {
        enter(words);
    } else if (strcmp(kind, "power") == 0 || strcmp(kind, "select") == 0) {
        event(kind[0] == 'p' ? POWER : SELECT, kind[0] == 'p' ? KZ_STATE_WAITING : KZ_STATE_ACTIVE);
    } else if (strcmp(kind, "frame") == 0 && count == 7) {
        frame(words);
    } else if (strcmp(kind, "end") == 0 && count == 3) {
        end(words);
    } else {
        return 0;
    }
    return 1;
}

void case_tests(const char *path) {
    FILE *file = fopen(path, "r");
    char line[LONGEST_LINE], *words[MOST_WORDS];
    int count, known = file != NULL;
    while (known && fgets(line, sizeof line, file)) {
        line_number++;
        count = words_of(line, words);
        known = count > 0 && played(words, count);
    }
    if (file) {
        fclose(file);
    }
    test_begin();
    check(known, "%s, line %u: it can't be read", path, line_number);
    check(begun > 0 && ended == begun, "%s: cases begun %u, ended %u", path, begun, ended);
    test_end("the text of the cases is read to its end");
}
