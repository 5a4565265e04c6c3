/* What a register holds, read by the names of toastlagoon.h: each record with the engines that reported these very bytes, and whether it
 * counts or why it is withheld. Beside it what a track, told the same summaries, answers to the same record. */
#include "records.h"

#define SPEC 1

enum state { AGREED, MISSING, DISPUTED, OTHER_SPEC };
static const char *const states[] = {"agreed", "missing", "disputed", "of another spec"};

/* A model is agreed if all its summaries say the same. */
static enum state state_of(const uint8_t *memory, uint8_t model, uint64_t spec) {
    const uint8_t *first = NULL, *s = memory + TL_REGISTER_SUMMARIES_AT;
    for (uint64_t i = 0; i < get(memory + TL_REGISTER_SUMMARY_COUNT_AT, 2); i++, s += TL_SUMMARY_SIZE) {
        if (s[TL_SUMMARY_MODEL_AT] != model) continue;
        if (first == NULL) first = s;
        if (memcmp(s + TL_SUMMARY_SPEC_AT, first + TL_SUMMARY_SPEC_AT, TL_SUMMARY_SIZE - TL_SUMMARY_SPEC_AT) != 0) return DISPUTED;
    }
    if (first == NULL) return MISSING;
    return get(first + TL_SUMMARY_SPEC_AT, 2) == spec ? AGREED : OTHER_SPEC;
}

static void print_state(const uint8_t *memory, const uint8_t *r) {
    for (int i = 0; i < r[TL_RECORD_MODEL_COUNT_AT]; i++) {
        enum state state = state_of(memory, r[TL_RECORD_MODELS_AT + i], get(r + TL_RECORD_SPEC_AT, 2));
        if (state == AGREED) continue;
        printf("withheld, model %d is %s", r[TL_RECORD_MODELS_AT + i], states[state]);
        return;
    }
    printf("counts");
}

static uint8_t memory[TL_REGISTER_SIZE], fresh[TL_TRACK_SIZE], track[TL_TRACK_SIZE], shelf[TL_SHELF_SIZE], board[TL_BOARD_SIZE];

static void summary(uint32_t engine, uint32_t model, uint8_t first) {
    uint8_t inputs[TL_INPUTS_SIZE] = {first};
    must(tl_register_summary(memory, sizeof memory, engine, model, SPEC, inputs, sizeof inputs));
    must(tl_track_summary(fresh, sizeof fresh, shelf, sizeof shelf, engine, model, SPEC, inputs, sizeof inputs));
}

static void report(uint32_t engine, int transmission, int32_t lat, uint8_t model, uint16_t spec) {
    uint8_t r[TL_RECORD_SIZE];
    write_fix(r, transmission, START + (uint64_t)transmission, lat, 1, &model, spec);
    must(tl_register_report(memory, sizeof memory, engine, r, sizeof r));
}

int main(void) {
    summary(1, 5, 0);
    summary(1, 7, 0);
    summary(2, 7, 9); /* model 7: engine 2 says something else than engine 1 */
    report(1, 1, 481370000, 5, SPEC);
    report(2, 1, 481380000, 5, SPEC); /* the same identity elsewhere */
    report(1, 2, 481370000, 6, SPEC);
    report(1, 3, 481370000, 7, SPEC);
    report(1, 4, 481370000, 5, SPEC + 1);
    for (uint64_t i = 0; i < held_count(memory); i++) {
        const uint8_t *r = held(memory, i) + TL_HELD_RECORD_AT;
        memcpy(track, fresh, sizeof track);
        memset(shelf, 0, sizeof shelf);
        uint32_t answer = tl_track_report(track, sizeof track, shelf, sizeof shelf, 1, r, TL_RECORD_SIZE);
        printf("lat=%" PRIu64 " message %d reported by %08" PRIx64 ": ", get(r + TL_RECORD_LAT_AT, 4), r[TL_RECORD_MESSAGE_AT],
               get(held(memory, i) + TL_HELD_SIGNERS_AT, TL_SIGNERS_SIZE));
        print_state(memory, r);
        printf("; a track answers %" PRIu32 " (%s)\n", answer, tl_answer_name(answer));
    }
    uint32_t length = tl_board(TL_MANAGER, memory, sizeof memory, board, sizeof board);
    printf("%.*s", (int)length, (const char *)board);
    return 0;
}
