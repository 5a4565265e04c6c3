/* Records, written by tl_record_of and read by the names of toastlagoon.h, for the programs of this folder. */
#include <inttypes.h>
#include <stdio.h>
#include <stdlib.h>
#include <string.h>

#include "toastlagoon.h"

#define START UINT64_C(1731679200000000000)

static inline uint64_t get(const uint8_t *at, int bytes) {
    uint64_t value = 0;
    for (int i = bytes; i-- > 0;) value = value << 8 | at[i];
    return value;
}

static inline void must(uint32_t answer) {
    if (answer == TL_OK) return;
    fprintf(stderr, "refused: %s\n", tl_answer_name(answer));
    exit(1);
}

/* A fix of a transmission (its number is in the message) heard by so many receivers from 101 on, with a deviation of 10 m on each axis, and
 * the model that it cites, or null. */
static inline void write_fix(uint8_t r[TL_RECORD_SIZE], int transmission, uint64_t time, int32_t lat, int receivers, const uint8_t *model,
                             uint16_t spec) {
    const uint8_t message[TL_SHORT_MESSAGE] = {(uint8_t)transmission, (uint8_t)(transmission >> 8)};
    uint64_t tags[TL_MAX_TAGS];
    for (int i = 0; i < receivers; i++) tags[i] = 101 + (uint64_t)i;
    tl_fields fields = {.time = time, .lat = lat, .message = message, .message_len = sizeof message, .tags = tags,
                        .tags_len = (size_t)receivers, .used = (1u << receivers) - 1, .models = model, .models_len = model != NULL,
                        .spec = spec, .covariance = {100, 0, 0, 100, 0, 100}};
    must(tl_record_of(&fields, r));
}

/* One heard by one receiver, with no model. */
static inline void write_record(uint8_t r[TL_RECORD_SIZE], int transmission, uint64_t time, int32_t lat) {
    write_fix(r, transmission, time, lat, 1, NULL, 0);
}

/* The i-th record that a register holds, with its signers behind it. */
static inline const uint8_t *held(const uint8_t *memory, uint64_t i) { return memory + TL_REGISTER_RECORDS_AT + i * TL_HELD_SIZE; }

static inline uint64_t held_count(const uint8_t *memory) { return get(memory + TL_REGISTER_RECORD_COUNT_AT, 2); }
