/* A tag that nothing is wrong with, frames for it, and what a frame must leave of it. */
#ifndef SOUND_H
#define SOUND_H

#include <stddef.h>
#include <stdint.h>

#include "check.h"

/* Places in a record. The tests have them from docs/C-FORM.md and not from the header, which is held against them. */
enum { COUNTERS_AT = 0, FAILED_AT = 12, STATE_AT = 14, KEY_NUMBER_AT = 15, KEY_AT = 16, CHALLENGE_AT = 32 };

/* A record with high counters, the highest failed count, and in every state a key number and challenge bytes that are not zero. */
void sound_record(uint8_t *record, uint8_t state);

/* Pages with no protection and no lock. */
void sound_store(uint8_t *store);

/* The image of a sound record and store. */
void sound_image(uint8_t *image);

/* READ 04h for a length of 4; a right CRC behind an unknown code for another. */
void frame_of(uint8_t *frame, size_t len);

/* Lends every buffer with its right length, sound contents, and READ 04h as the frame. */
void lend_sound(uint8_t state, enum side side);

/* Puts sound contents into buffers of any length. */
void put_sound(uint8_t state);

/* What is expected of a frame made by frame_of in a sound record, whose buffers have these lengths; the answer. */
uint64_t expect_frame(uint8_t state, size_t len);

/* The record's fleeting bytes are expected to be this state, and zeros. */
void expect_fleeting(uint8_t state);

#endif
