/* Kazdumera: a MIFARE Ultralight AES tag as five calls over byte buffers, for box firmware. docs/C-FORM.md has every byte.
 *
 * Whatever lies in the buffers and however long they are, each call ends and answers one number. Two things are left to the caller, and
 * not tested: no pointer is null, even where its length is 0, and the buffers of one call do not overlap.
 *
 * C99 or later, C++11 or later. */
#ifndef KAZDUMERA_H
#define KAZDUMERA_H

#include <stddef.h>
#include <stdint.h>

/* The bytes to lend. A reply buffer, and an image buffer that is written, may be longer; the others have exactly this size. */
#define KZ_RECORD_SIZE 48
#define KZ_STORE_SIZE 240
#define KZ_REPLY_SIZE 242
#define KZ_IMAGE_SIZE 271
#define KZ_RANDOM_SIZE 16

/* The numbers a call answers with. 2 to 9 and 11 end the session: the tag is WAITING until it is selected again. */
enum kz_number {
    KZ_CARRIED_OUT = 0,
    KZ_TAG_WAITING = 1,           /* nothing changed, and nothing said */
    KZ_FRAME_DAMAGED = 2,         /* under 3 bytes, over 64, or a wrong CRC */
    KZ_CODE_NOT_ALLOWED = 3,      /* an unknown code, or not allowed now */
    KZ_LENGTH_WRONG = 4,          /* not the length of that command */
    KZ_ARGUMENT_WRONG = 5,        /* no such page, counter or key number, or a wrong order */
    KZ_AUTHENTICATION_NEEDED = 6,
    KZ_LOCKED = 7,                /* the page, the key or the configuration */
    KZ_PROOF_FALSE = 8,           /* the one refusal that may change something stored: the failed count */
    KZ_COUNTER_FULL = 9,          /* it would pass FFFFFFh */
    KZ_BUFFER_WRONG = 10,         /* a wrong length, or a record that no tag can have; no buffer is changed */
    KZ_LIMIT_REACHED = 11,        /* too many failed authentications */
    KZ_IMAGE_WRONG = 12
};

/* What goes on the air. */
enum kz_reply {
    KZ_REPLY_SILENCE = 0,
    KZ_REPLY_NIBBLE = 1, /* four bits, without CRC: kz_answer_nibble */
    KZ_REPLY_BYTES = 2   /* the first kz_answer_bytes of the reply buffer, their CRC included */
};

/* The one nibble that is no refusal. */
#define KZ_ACK 0xA

/* Which rule stopped a WRITE, the first of them in this order. 1 and 2 go with number 6, 3 to 6 with 7. */
enum kz_reason {
    KZ_REASON_NONE = 0,       /* no WRITE, or one that none of these stopped */
    KZ_REASON_AUTH0 = 1,      /* the page is at or above AUTH0, and the tag isn't AUTHENTICATED */
    KZ_REASON_RANDOM_ID = 2,  /* the Random ID bit would change in ACTIVE */
    KZ_REASON_OWN_LOCK = 3,   /* the page's own lock bit, in lock byte 0 or 1 */
    KZ_REASON_PAIR_LOCK = 4,  /* its pair's lock bit, in lock byte 2 or 3 */
    KZ_REASON_KEY_LOCK = 5,   /* a bit of LOCK_KEYS: of a key's pages, or of page 2Dh itself */
    KZ_REASON_CONFIG_LOCK = 6 /* LOCK_USR_CFG */
};

enum kz_state {
    KZ_STATE_WAITING = 0,
    KZ_STATE_ACTIVE = 1,
    KZ_STATE_TRACEABLE = 2,
    KZ_STATE_AUTHENTICATED = 3,
    KZ_STATE_CHALLENGED = 4 /* between the two parts of an authentication */
};

/* Key numbers, as AUTHENTICATE sends them. */
enum kz_key {
    KZ_KEY_DATA_PROT = 0,
    KZ_KEY_UID_RETR = 1,
    KZ_KEY_ORIGINALITY = 2
};

/* Lets compilers that can do so warn of a null pointer where the call is written. */
#if defined(__GNUC__)
#define KZ_NO_NULL __attribute__((nonnull))
#else
#define KZ_NO_NULL
#endif

#ifdef __cplusplus
extern "C" {
#endif

/* The power goes off and on: WAITING. */
uint8_t kz_power(uint8_t *record, size_t record_len) KZ_NO_NULL;

/* A reader has selected the tag: ACTIVE, from any state. */
uint8_t kz_select(uint8_t *record, size_t record_len) KZ_NO_NULL;

/* Fills the record and the store from an image file. */
uint8_t kz_load(uint8_t *record, size_t record_len, uint8_t *store, size_t store_len, const uint8_t *file, size_t file_len) KZ_NO_NULL;

/* Writes the image file of a record and a store. */
uint8_t kz_save(const uint8_t *record, size_t record_len, const uint8_t *store, size_t store_len, uint8_t *file,
                size_t file_len) KZ_NO_NULL;

/* A frame as it was received, its CRC included. The random block is drawn anew for every frame: the tag takes its challenge from it, and
 * the firmware need not know which frames ask for one. The answer is taken apart by the kz_answer functions. */
uint64_t kz_frame(uint8_t *record, size_t record_len, uint8_t *store, size_t store_len, const uint8_t *frame, size_t frame_len,
                  const uint8_t *random, size_t random_len, uint8_t *reply, size_t reply_len) KZ_NO_NULL;

#ifdef __cplusplus
}
#endif

/* ---- The answer of kz_frame */

static inline uint8_t kz_answer_number(uint64_t answer) { return (uint8_t)answer; }

static inline uint8_t kz_answer_kind(uint64_t answer) { return (uint8_t)(answer >> 8); }

/* 0 where the reply is no nibble; but 0 is a nibble too, so ask for the kind first. */
static inline uint8_t kz_answer_nibble(uint64_t answer) { return (uint8_t)(answer >> 16); }

/* A value of enum kz_reason: why a WRITE got 6 or 7. 0 at any other answer, a 6 to another command included; nothing keeps it. */
static inline uint8_t kz_answer_reason(uint64_t answer) { return (uint8_t)(answer >> 24); }

/* 0 where the reply is not bytes. */
static inline uint16_t kz_answer_bytes(uint64_t answer) { return (uint16_t)(answer >> 32); }

/* Kept free for replies that are no whole number of bytes; 0 today. */
static inline uint16_t kz_answer_bits(uint64_t answer) { return (uint16_t)(answer >> 48); }

/* ---- The record, to be read. It has no setters: it comes from kz_load, and only the calls change it. */

/* Counter 0, 1 or 2: four bytes, low byte first. Another number reads as 0, since its bytes would not be a counter's. */
static inline uint32_t kz_record_counter(const uint8_t *record, unsigned n) {
    if (n > 2) {
        return 0;
    }
    record += 4 * n;
    return record[0] | (uint32_t)record[1] << 8 | (uint32_t)record[2] << 16 | (uint32_t)record[3] << 24;
}

/* How many authentications have failed: two bytes, low byte first. */
static inline uint16_t kz_record_failed(const uint8_t *record) { return (uint16_t)(record[12] | (unsigned)record[13] << 8); }

/* A value of enum kz_state, or one that doesn't exist. */
static inline uint8_t kz_record_state(const uint8_t *record) { return record[14]; }

/* The key that is being proved. It means something only while CHALLENGED. */
static inline uint8_t kz_record_key_number(const uint8_t *record) { return record[15]; }

#endif
