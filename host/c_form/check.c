/* Memory protection and a jump out of a signal are POSIX, not C99. */
#define _DEFAULT_SOURCE
#include <setjmp.h>
#include <signal.h>
#include <stdarg.h>
#include <stdio.h>
#include <stdlib.h>
#include <string.h>
#include <sys/mman.h>
#include <unistd.h>

#include "check.h"

/* The library is compiled without the sanitizers, so they don't see what it does. A buffer therefore lies against a page that may not be
 * touched, first with its end and then with its start: a byte read or written past it traps. The rest of its own page holds guard bytes. */
struct buffer {
    uint8_t *page; /* the open page between two closed ones */
    uint8_t *due;  /* what it must hold after the call */
    uint8_t *at;   /* where the buffer begins in it */
    size_t len;
    int any; /* its bytes may become anything */
};

static struct buffer buffers[BUFFERS];
static const char *const names[BUFFERS] = {"record", "store", "frame", "random block", "reply buffer", "image"};
static uint8_t *guards;
static size_t page_size;

static struct {
    unsigned calls, wrong, passed, failed;
} counts;

/* ---- tests */

/* The first differences of a test are said, since one fault often shows a thousand times. */
static void say(const char *words, va_list values) {
    if (counts.wrong++ < 4) {
        printf("    ");
        vprintf(words, values);
        printf("\n");
    }
}

void check(int right, const char *words, ...) {
    va_list values;
    if (!right) {
        va_start(values, words);
        say(words, values);
        va_end(values);
    }
}

void test_begin(void) { counts.calls = counts.wrong = 0; }

void test_end(const char *name) {
    if (counts.wrong > 4) {
        printf("    and %u more\n", counts.wrong - 4);
    }
    printf("%s: %s, calls: %u\n", counts.wrong ? "FAILED" : "ok", name, counts.calls);
    counts.passed += counts.wrong == 0;
    counts.failed += counts.wrong != 0;
}

int tests_counted(void) {
    printf("%u passed, %u failed\n", counts.passed, counts.failed);
    return counts.failed ? EXIT_FAILURE : EXIT_SUCCESS;
}

/* ---- buffers */

static sigjmp_buf fence;
static volatile sig_atomic_t calling;

/* Back to the call that touched a fence. Outside a call it is a fault of the tests, and ends them. */
static void touched(int number) {
    if (calling) {
        calling = 0;
        siglongjmp(fence, number);
    }
    signal(number, SIG_DFL);
}

static uint8_t *fenced_page(void) {
    uint8_t *closed = mmap(NULL, 3 * page_size, PROT_NONE, MAP_PRIVATE | MAP_ANONYMOUS, -1, 0);
    if (closed == MAP_FAILED || mprotect(closed + page_size, page_size, PROT_READ | PROT_WRITE) != 0) {
        perror("fences");
        exit(EXIT_FAILURE);
    }
    return closed + page_size;
}

void fences_up(void) {
    struct sigaction action;
    size_t i;
    int b;
    page_size = (size_t)sysconf(_SC_PAGESIZE);
    memset(&action, 0, sizeof action);
    action.sa_handler = touched;
    sigaction(SIGSEGV, &action, NULL);
    sigaction(SIGBUS, &action, NULL);
    guards = fenced_page();
    /* neighbours differ and 0 is rare, so that a byte that was moved or cleared shows */
    for (i = 0; i < page_size; i++) {
        guards[i] = (uint8_t)(0xA5 + 37 * i);
    }
    for (b = 0; b < BUFFERS; b++) {
        buffers[b].page = fenced_page();
        buffers[b].due = fenced_page();
        lend(b, 0, AT_END);
    }
}

void lend(int buffer, size_t len, enum side side) {
    struct buffer *b = &buffers[buffer];
    memcpy(b->page, guards, page_size);
    b->at = side == AT_START ? b->page : b->page + page_size - len;
    b->len = len;
}

void lend_own(int buffer, uint8_t *own, size_t len) {
    buffers[buffer].at = own;
    buffers[buffer].len = len;
}

void put(int buffer, size_t from, const void *bytes, size_t count) {
    struct buffer *b = &buffers[buffer];
    if (from < b->len) {
        memcpy(b->at + from, bytes, count < b->len - from ? count : b->len - from);
    }
}

uint8_t *lent(int buffer) { return buffers[buffer].at; }

size_t lent_len(int buffer) { return buffers[buffer].len; }

void expect_nothing(void) {
    int b;
    for (b = 0; b < BUFFERS; b++) {
        memcpy(buffers[b].due, buffers[b].page, page_size);
        buffers[b].any = 0;
    }
}

void expect(int buffer, size_t from, const void *bytes, size_t count) {
    struct buffer *b = &buffers[buffer];
    memcpy(b->due + (b->at - b->page) + from, bytes, count);
}

void expect_any(int buffer) { buffers[buffer].any = 1; }

/* ---- calls */

static uint64_t called(enum call call) {
    const struct buffer *r = &buffers[RECORD], *s = &buffers[STORE], *f = &buffers[FRAME], *i = &buffers[IMAGE];
    const struct buffer *random = &buffers[RANDOM], *reply = &buffers[REPLY];
    switch (call) {
    case POWER:
        return kz_power(r->at, r->len);
    case SELECT:
        return kz_select(r->at, r->len);
    case LOAD:
        return kz_load(r->at, r->len, s->at, s->len, i->at, i->len);
    case SAVE:
        return kz_save(r->at, r->len, s->at, s->len, i->at, i->len);
    case SEND:
        return kz_frame(r->at, r->len, s->at, s->len, f->at, f->len, random->at, random->len, reply->at, reply->len);
    }
    return TRAPPED;
}

static uint64_t caught(enum call call) {
    uint64_t answer;
    if (sigsetjmp(fence, 1) != 0) {
        return TRAPPED;
    }
    calling = 1;
    answer = called(call);
    calling = 0;
    return answer;
}

/* Where a buffer or its guards are not as they must be; 0 if they are. */
static int differs(int buffer, char *words, size_t room) {
    const struct buffer *b = &buffers[buffer];
    size_t i;
    if (b->any) {
        memcpy(b->due + (b->at - b->page), b->at, b->len);
    }
    if (memcmp(b->page, b->due, page_size) == 0) {
        return 0;
    }
    for (i = 0; b->page[i] == b->due[i]; i++) {
    }
    snprintf(words, room, "%s byte %ld is %02x, expected %02x", names[buffer], (long)i - (long)(b->at - b->page), b->page[i], b->due[i]);
    return 1;
}

static void difference(const char *found, const char *words, va_list values) {
    char call[200];
    vsnprintf(call, sizeof call, words, values);
    check(0, "%s: %s", call, found);
}

uint64_t run(enum call call, uint64_t answer, const char *words, ...) {
    const uint64_t got = caught(call);
    char found[100] = "";
    va_list values;
    int b = 0;
    counts.calls++;
    if (got == TRAPPED) {
        snprintf(found, sizeof found, "it reads or writes outside a buffer");
    } else if (got != answer) {
        snprintf(found, sizeof found, "the answer is %llxh, expected %llxh", (unsigned long long)got, (unsigned long long)answer);
    }
    while (!found[0] && b < BUFFERS && !differs(b, found, sizeof found)) {
        b++;
    }
    if (found[0]) {
        va_start(values, words);
        difference(found, words, values);
        va_end(values);
    }
    return got;
}
