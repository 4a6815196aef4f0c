/* Buffers between fences, calls that are held against what they must leave, and the count of tests. */
#ifndef CHECK_H
#define CHECK_H

#include <stddef.h>
#include <stdint.h>

#include "kazdumera.h"

/* The buffers that a call can be lent. */
enum { RECORD, STORE, FRAME, RANDOM, REPLY, IMAGE, BUFFERS };

enum call { POWER, SELECT, LOAD, SAVE, SEND };

/* The side on which a buffer touches a fence. */
enum side { AT_START, AT_END, SIDES };

void fences_up(void);

/* Lends a buffer of this length with guard bytes in it and round it. */
void lend(int buffer, size_t len, enum side side);

/* Lends memory of the test's own instead; nothing is expected of it. */
void lend_own(int buffer, uint8_t *own, size_t len);

/* Puts bytes into a buffer from a place on, as far as it reaches. */
void put(int buffer, size_t from, const void *bytes, size_t count);

/* A lent buffer's bytes, and its length. */
uint8_t *lent(int buffer);
size_t lent_len(int buffer);

/* After the next call every byte is as now, but for what is expected behind this. */
void expect_nothing(void);
void expect(int buffer, size_t from, const void *bytes, size_t count);

/* But for this buffer, which may hold anything; its guards are as now. */
void expect_any(int buffer);

/* Makes a call with the lent buffers and holds its answer and every byte, guards too, against what is expected. The words are said of a
 * difference. The answer, or TRAPPED where the call touched a fence. */
#define TRAPPED UINT64_MAX
#if defined(__GNUC__)
__attribute__((format(printf, 3, 4)))
#endif
uint64_t run(enum call call, uint64_t answer, const char *words, ...);

#if defined(__GNUC__)
__attribute__((format(printf, 2, 3)))
#endif
void check(int right, const char *words, ...);

/* A test is everything that is checked between the two. */
void test_begin(void);
void test_end(const char *name);

/* The closing line; the exit status. */
int tests_counted(void);

/* The tests by file. */
void length_tests(void);
void long_length_tests(void);
void record_tests(void);
void image_tests(void);
void reason_tests(void);
void case_tests(const char *path);

#endif
