/* The header's names and accessors against docs/C-FORM.md. Compiled as C and as C++, for every standard that the header is for. */
#include "kazdumera.h"
/* a second time: it may be named in several headers */
#include "kazdumera.h"

#include "header.h"

static int numbers(void) {
    return KZ_CARRIED_OUT == 0 && KZ_TAG_WAITING == 1 && KZ_FRAME_DAMAGED == 2 && KZ_CODE_NOT_ALLOWED == 3 && KZ_LENGTH_WRONG == 4 &&
           KZ_ARGUMENT_WRONG == 5 && KZ_AUTHENTICATION_NEEDED == 6 && KZ_LOCKED == 7 && KZ_PROOF_FALSE == 8 && KZ_COUNTER_FULL == 9 &&
           KZ_BUFFER_WRONG == 10 && KZ_LIMIT_REACHED == 11 && KZ_IMAGE_WRONG == 12;
}

static int names(void) {
    return KZ_STATE_WAITING == 0 && KZ_STATE_ACTIVE == 1 && KZ_STATE_TRACEABLE == 2 && KZ_STATE_AUTHENTICATED == 3 &&
           KZ_STATE_CHALLENGED == 4 && KZ_REPLY_SILENCE == 0 && KZ_REPLY_NIBBLE == 1 && KZ_REPLY_BYTES == 2 && KZ_ACK == 10 &&
           KZ_KEY_DATA_PROT == 0 && KZ_KEY_UID_RETR == 1 && KZ_KEY_ORIGINALITY == 2;
}

static int reasons(void) {
    return KZ_REASON_NONE == 0 && KZ_REASON_AUTH0 == 1 && KZ_REASON_RANDOM_ID == 2 && KZ_REASON_OWN_LOCK == 3 && KZ_REASON_PAIR_LOCK == 4 &&
           KZ_REASON_KEY_LOCK == 5 && KZ_REASON_CONFIG_LOCK == 6;
}

static int sizes(void) {
    return KZ_RECORD_SIZE == 48 && KZ_STORE_SIZE == 240 && KZ_REPLY_SIZE == 242 && KZ_IMAGE_SIZE == 271 && KZ_RANDOM_SIZE == 16;
}

/* every field of an answer differs from every other */
static int answers(void) {
    const uint64_t answer = UINT64_C(0xFEDCBA9876543210);
    return kz_answer_number(answer) == 0x10 && kz_answer_kind(answer) == 0x32 && kz_answer_nibble(answer) == 0x54 &&
           kz_answer_reason(answer) == 0x76 && kz_answer_bytes(answer) == 0xBA98 && kz_answer_bits(answer) == 0xFEDC;
}

/* every byte of a record has its place as its value, or 255 less it */
static int fields(void) {
    uint8_t up[KZ_RECORD_SIZE], down[KZ_RECORD_SIZE];
    unsigned i;
    for (i = 0; i < KZ_RECORD_SIZE; i++) {
        up[i] = (uint8_t)i;
        down[i] = (uint8_t)(255 - i);
    }
    return kz_record_counter(up, 0) == 0x03020100 && kz_record_counter(up, 1) == 0x07060504 && kz_record_counter(up, 2) == 0x0B0A0908 &&
           kz_record_counter(down, 0) == 0xFCFDFEFF && kz_record_counter(down, 2) == 0xF4F5F6F7 && kz_record_failed(up) == 0x0D0C &&
           kz_record_failed(down) == 0xF2F3 && kz_record_state(up) == 14 && kz_record_key_number(up) == 15;
}

static int no_counters(void) {
    const uint8_t record[KZ_RECORD_SIZE] = {1, 1, 1, 1, 1, 1, 1, 1, 1, 1, 1, 1, 1, 1, 1, 1};
    return kz_record_counter(record, 3) == 0 && kz_record_counter(record, 4) == 0 && kz_record_counter(record, 0x40000000) == 0 &&
           kz_record_counter(record, (unsigned)-1) == 0;
}

/* the calls under the names that the library has; 88h is the first check byte of a serial number of zeros */
static int calls(void) {
    uint8_t record[KZ_RECORD_SIZE] = {0}, store[KZ_STORE_SIZE] = {0, 0, 0, 0x88}, image[KZ_IMAGE_SIZE] = {0}, reply[KZ_REPLY_SIZE] = {0};
    const uint8_t frame[1] = {0}, random[KZ_RANDOM_SIZE] = {0};
    return kz_frame(record, sizeof record, store, sizeof store, frame, 0, random, sizeof random, reply, sizeof reply) == KZ_TAG_WAITING &&
           kz_select(record, sizeof record) == KZ_CARRIED_OUT && kz_record_state(record) == KZ_STATE_ACTIVE &&
           kz_save(record, sizeof record, store, sizeof store, image, sizeof image) == KZ_CARRIED_OUT &&
           kz_load(record, sizeof record, store, sizeof store, image, sizeof image) == KZ_CARRIED_OUT &&
           kz_power(record, sizeof record) == KZ_CARRIED_OUT && kz_record_state(record) == KZ_STATE_WAITING;
}

const char *header_wrong(void) {
    return !numbers() ? "a number"
           : !names() ? "a state, a kind of reply or a key"
           : !reasons() ? "a reason"
           : !sizes() ? "a size"
           : !answers() ? "a part of the answer"
           : !fields() ? "a field of the record"
           : !no_counters() ? "a counter above 2"
           : !calls() ? "a call"
                      : 0;
}
