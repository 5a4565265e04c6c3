/* Carries a register over from version 0.10 or before, in which a record had room for 16 tags: reads its bytes from standard input, puts each record into today's
 * layout, and prints the board, which is the one that the older library computed. docs/OPERATION.md, 'Carrying a register over'. */
#include "records.h"

/* The layout before. What is not named here has not moved. */
#define BEFORE_TAGS 16
#define BEFORE_USED_SIZE 2
#define BEFORE_TAGS_AT (TL_RECORD_USED_AT + BEFORE_USED_SIZE)
#define BEFORE_MODEL_COUNT_AT (BEFORE_TAGS_AT + BEFORE_TAGS * TL_TAG_SIZE)
#define BEFORE_RECORD_SIZE (BEFORE_MODEL_COUNT_AT + TL_RECORD_SIZE - TL_RECORD_MODEL_COUNT_AT)
#define BEFORE_HELD_SIZE (BEFORE_RECORD_SIZE + TL_SIGNERS_SIZE)
#define BEFORE_REGISTER_SIZE (TL_REGISTER_RECORDS_AT + TL_MAX_RECORDS * BEFORE_HELD_SIZE)

/* Zeros behind the mask, and zeros behind the tags; all other bytes stay, in their order. */
static void widen_record(uint8_t to[TL_RECORD_SIZE], const uint8_t from[BEFORE_RECORD_SIZE]) {
    memset(to, 0, TL_RECORD_SIZE);
    memcpy(to, from, BEFORE_TAGS_AT);
    memcpy(to + TL_RECORD_TAGS_AT, from + BEFORE_TAGS_AT, BEFORE_TAGS * TL_TAG_SIZE);
    memcpy(to + TL_RECORD_MODEL_COUNT_AT, from + BEFORE_MODEL_COUNT_AT, BEFORE_RECORD_SIZE - BEFORE_MODEL_COUNT_AT);
}

/* Records stay in their order. A place that is not in use is zeros before and after. */
static void widen_register(uint8_t to[TL_REGISTER_SIZE], const uint8_t from[BEFORE_REGISTER_SIZE]) {
    memset(to, 0, TL_REGISTER_SIZE);
    memcpy(to, from, TL_REGISTER_RECORDS_AT);
    for (int i = 0; i < TL_MAX_RECORDS; i++) {
        const uint8_t *place = from + TL_REGISTER_RECORDS_AT + i * BEFORE_HELD_SIZE;
        uint8_t *wider = to + TL_REGISTER_RECORDS_AT + i * TL_HELD_SIZE;
        widen_record(wider + TL_HELD_RECORD_AT, place);
        memcpy(wider + TL_HELD_SIGNERS_AT, place + BEFORE_RECORD_SIZE, TL_SIGNERS_SIZE);
    }
}

int main(void) {
    static uint8_t before[BEFORE_REGISTER_SIZE + 1], memory[TL_REGISTER_SIZE], text[TL_BOARD_SIZE];
    if (fread(before, 1, sizeof before, stdin) != BEFORE_REGISTER_SIZE) {
        fprintf(stderr, "widen: a register of version 0.10 or before has %d bytes\n", BEFORE_REGISTER_SIZE);
        return 1;
    }
    widen_register(memory, before);
    uint32_t length = tl_board(TL_ANALYST, memory, sizeof memory, text, sizeof text);
    if (length == TL_MALFORMED_REGISTER) must(length);
    fwrite(text, 1, length, stdout);
    return 0;
}
