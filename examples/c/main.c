/* The sizes of the layouts, a hash, the three outcomes of an agreement, decisions over three fixes of one transmission, also in another order,
 * reports into a register, a conviction that is shown first, a map, a register turned for an archive, sessions, the same three fixes in two orders
 * into tracks, and a fix that waits on a shelf, called from C. */
#include <inttypes.h>
#include <stdio.h>
#include <stdlib.h>
#include <string.h>

#include "toastlagoon.h"

/* What the program chooses. The layouts, the limits and the answers have names in the header. */
static const double VARIANCE = 100.0;
enum { STEP = 2700, FIXES = 3, TIME = 1000, HEIGHT = 1500, MODEL = 5, SPEC = 3, TOO_LITTLE = 100 };

static uint64_t get(const uint8_t *at, int bytes) {
    uint64_t value = 0;
    for (int i = bytes; i-- > 0;) value = value << 8 | at[i];
    return value;
}

static uint64_t bits_of(double x) {
    uint64_t bits;
    memcpy(&bits, &x, sizeof bits);
    return bits;
}

/* A fix heard by the receivers 1 to `tags`, `lat` 1e-7 degree north of the equator, with the same variance on each axis; the pointers go to
 * what stays. */
static tl_fields fields_of(size_t tags, int32_t lat, double variance) {
    static const uint8_t message[TL_SHORT_MESSAGE] = {0x8d};
    static const uint64_t receivers[FIXES] = {1, 2, 3};
    tl_fields fields = {TIME, lat, 0, true, HEIGHT, message, TL_SHORT_MESSAGE, receivers, tags, (1u << tags) - 1, NULL, 0, 0, {0}};
    fields.covariance[0] = fields.covariance[3] = fields.covariance[5] = variance;
    return fields;
}

static void must(uint32_t answer) {
    if (answer == TL_OK) return;
    printf("refused: %s\n", tl_answer_name(answer));
    exit(1);
}

/* The same with a deviation of 10 m on each axis. */
static void write_record(uint8_t r[TL_RECORD_SIZE], int tags, int32_t lat) {
    const tl_fields fields = fields_of((size_t)tags, lat, VARIANCE);
    must(tl_record_of(&fields, r));
}

/* The same as an item of a decision: consistent, not preferred, unjudged, of no standing. */
static void write_item(uint8_t item[TL_ITEM_SIZE], int tags, int32_t lat) {
    memset(item, 0, TL_ITEM_SIZE);
    write_record(item + TL_ITEM_RECORD_AT, tags, lat);
    item[TL_ITEM_IDENTITY_AT] = (uint8_t)tags;
    item[TL_ITEM_CONSISTENT_AT] = 1;
    item[TL_ITEM_VERIFIED_AT] = TL_UNJUDGED;
}

/* The library has the header's version and its words for every answer, and writes them only where they fit. */
static void show_words(void) {
    int same = 0;
    for (uint32_t answer = 0; answer < 100; answer++) {
        const char *name = tl_answer_name(answer);
        size_t length = strlen(name);
        uint8_t text[TL_ANSWER_TEXT_SIZE + 1] = {0}, small[TL_ANSWER_TEXT_SIZE] = {0};
        if (tl_answer_text(answer, text, TL_ANSWER_TEXT_SIZE) != length || strcmp((const char *)text, name) != 0) continue;
        if (tl_answer_text(answer, small, length) != length || memcmp(small, name, length) != 0) continue;
        memset(small, 0, sizeof small);
        if (tl_answer_text(answer, small, length - 1) != length || small[0] != 0) continue;
        same++;
    }
    printf("library %" PRIu32 ": %d numbers have the header's words\n", tl_version(), same);
}

static void show(const char *what, uint32_t answer) { printf("%s: answer %" PRIu32 " (%s)\n", what, answer, tl_answer_name(answer)); }

static void show_text(const char *what, uint32_t length, const uint8_t *text) {
    printf("%s of %" PRIu32 " bytes:\n%.*s", what, length, (int)length, (const char *)text);
}

static void sizes(void) {
    printf("header %s (%d): record %d, summary %d, register %d, item %d, answer %d, fix %d, refused %d, transmission %d, track %d, shelf "
           "%d\n",
           TL_VERSION_TEXT, TL_VERSION, TL_RECORD_SIZE, TL_SUMMARY_SIZE, TL_REGISTER_SIZE, TL_ITEM_SIZE, TL_ANSWER_SIZE, TL_FIX_SIZE,
           TL_REFUSED_SIZE, TL_TRANSMISSION_SIZE, TL_TRACK_SIZE, TL_SHELF_SIZE);
    show_words();
}

static void show_indices(const char *name, const uint8_t *list) {
    printf(" %s", name);
    for (int i = 0; i < list[0]; i++) printf(" %d", list[1 + i]);
}

static void hash(void) {
    uint8_t out[TL_HASH_SIZE];
    tl_blake2s256((const uint8_t *)"abc", 3, out);
    printf("hash of abc: ");
    for (int i = 0; i < TL_HASH_SIZE; i++) printf("%02x", out[i]);
    printf("\n");
}

/* A larger fix, `step` 1e-7 degree north of a smaller one, whose variance is the same on each axis. */
static void agreement(const char *what, int32_t step, double variance) {
    double chi2, limit;
    uint32_t outcome = tl_agreement(0, 0, true, HEIGHT, variance, 0, 0, variance, 0, variance, step, 0, true, HEIGHT, VARIANCE, 0, 0,
                                    VARIANCE, 0, VARIANCE, &chi2, &limit);
    printf("agreement, %s: ", what);
    switch (outcome) {
    case TL_INSIDE: printf("inside, chi-square %016" PRIx64 ", limit %g\n", bits_of(chi2), limit); break;
    case TL_OUTSIDE: printf("outside, chi-square %016" PRIx64 ", limit %g\n", bits_of(chi2), limit); break;
    case TL_UNMEASURABLE: printf("unmeasurable\n"); break; /* neither number was written */
    default: printf("no outcome of the library\n");
    }
}

static void show_decision(const char *what, const uint8_t *items, size_t length) {
    uint8_t answer[TL_ANSWER_SIZE];
    printf("%s: answer %" PRIu32, what, tl_decide(items, length, answer));
    show_indices("ranked", answer + TL_RANKED_AT);
    show_indices("dominated", answer + TL_DOMINATED_AT);
    printf(" refusals %d", answer[TL_REFUSALS_AT]);
    for (int i = 0; i < answer[TL_REFUSALS_AT]; i++) {
        const uint8_t *r = answer + TL_REFUSALS_AT + 1 + i * TL_REFUSAL_SIZE;
        printf(", %s %d against %d", r[TL_REFUSAL_SUPERSEDED_AT] ? "superseded" : "contested", r[TL_REFUSAL_INDEX_AT],
               r[TL_REFUSAL_AGAINST_AT]);
        if (r[TL_REFUSAL_MEASURED_AT])
            printf(" chi-square %016" PRIx64, get(r + TL_REFUSAL_CHI2_AT, TL_F64_SIZE));
        else
            printf(" unmeasurable");
    }
    printf("\n");
}

static void decide(void) {
    uint8_t items[FIXES * TL_ITEM_SIZE], answer[TL_ANSWER_SIZE];
    for (int i = 0; i < FIXES; i++) write_item(items + i * TL_ITEM_SIZE, i + 1, STEP * i);
    show_decision("decide three fixes", items, sizeof items);
    /* An item that is not consistent refuses nobody: the first here, so that the third stands. */
    items[TL_ITEM_CONSISTENT_AT] = 0;
    show_decision("the first not consistent", items, sizeof items);
    /* One with a covariance of zeros refuses every larger one, and there is no chi-square. */
    items[TL_ITEM_CONSISTENT_AT] = 1;
    const tl_fields without = fields_of(1, 0, 0.0);
    must(tl_record_of(&without, items + TL_ITEM_RECORD_AT));
    show_decision("the first without a covariance", items, sizeof items);
    show("decide half an item", tl_decide(items, TL_ITEM_SIZE / 2, answer));
    memset(items, 0, sizeof items);
    show("decide an item of zeros", tl_decide(items, TL_ITEM_SIZE, answer));
    /* No items: the length is 0, and the pointer is still a valid one. */
    show("decide nothing", tl_decide(items, 0, answer));
}

typedef uint32_t decide_function(const uint8_t *items, size_t items_len, uint8_t answer[TL_ANSWER_SIZE]);

/* Three fixes at one place, in this order: what is decided of them, with the first byte of each identity in place of the index. */
static void identities(const char *what, decide_function *function, const int order[FIXES]) {
    uint8_t items[FIXES * TL_ITEM_SIZE], answer[TL_ANSWER_SIZE];
    for (int i = 0; i < FIXES; i++) write_item(items + i * TL_ITEM_SIZE, order[i] + 1, 0);
    printf("%s, items %d %d %d: answer %" PRIu32, what, order[0] + 1, order[1] + 1, order[2] + 1, function(items, sizeof items, answer));
    for (int list = 0; list < 2; list++) {
        uint8_t *at = answer + (list ? TL_DOMINATED_AT : TL_RANKED_AT);
        for (int i = 0; i < at[0]; i++) at[1 + i] = items[at[1 + i] * TL_ITEM_SIZE + TL_ITEM_IDENTITY_AT];
        show_indices(list ? "dominated" : "ranked", at);
    }
    printf("\n");
}

/* In the order given the dominated stand by their indices; in any order they stand by their identities. */
static void orders(void) {
    static const int ascending[FIXES] = {0, 1, 2}, other[FIXES] = {1, 0, 2};
    identities("decide", tl_decide, ascending);
    identities("decide", tl_decide, other);
    identities("decide in any order", tl_decide_any, ascending);
    identities("decide in any order", tl_decide_any, other);
}

static void reports(void) {
    static uint8_t memory[TL_REGISTER_SIZE], out[TL_BOARD_SIZE];
    uint8_t r[TL_RECORD_SIZE];
    write_record(r, 2, STEP);
    show("report by engine 4", tl_register_report(memory, sizeof memory, 4, r, sizeof r));
    show("report by engine 7", tl_register_report(memory, sizeof memory, 7, r, sizeof r));
    show("report by engine 32", tl_register_report(memory, sizeof memory, TL_MAX_ENGINE + 1, r, sizeof r));
    /* The board as it would be, and then the conviction: the board at the end is the one that was previewed. */
    show_text("preview without engine 4", tl_register_preview(TL_MANAGER, memory, sizeof memory, 4, out, sizeof out), out);
    show("preview without engine 32", tl_register_preview(TL_MANAGER, memory, sizeof memory, TL_MAX_ENGINE + 1, out, TOO_LITTLE));
    show("preview into too little", tl_register_preview(TL_MANAGER, memory, sizeof memory, 4, out, TOO_LITTLE));
    /* A desk that may not is refused before anything else is looked at. */
    show("preview for a crew", tl_register_preview(TL_CREW, memory, 0, 4, out, 0));
    show("conviction of engine 4 by an analyst", tl_register_conviction(TL_ANALYST, memory, sizeof memory, 4));
    show("conviction of engine 4 at desk 258", tl_register_conviction(258, memory, 0, 4));
    show("conviction of engine 4", tl_register_conviction(TL_MANAGER, memory, sizeof memory, 4));
    show("report by engine 4", tl_register_report(memory, sizeof memory, 4, r, sizeof r));
    const uint8_t *first = memory + TL_REGISTER_RECORDS_AT;
    printf("convicted %08" PRIx64 ", %" PRIu64 " record, signers %08" PRIx64 "\n", get(memory + TL_REGISTER_CONVICTED_AT, 4),
           get(memory + TL_REGISTER_RECORD_COUNT_AT, 2), get(first + TL_HELD_SIGNERS_AT, TL_SIGNERS_SIZE));
    show_text("board", tl_board(TL_MANAGER, memory, sizeof memory, out, sizeof out), out);
    show_text("board of a crew", tl_board(TL_CREW, memory, sizeof memory, out, sizeof out), out);
    show("board into too little", tl_board(TL_MANAGER, memory, sizeof memory, out, TOO_LITTLE));
}

/* A fix as a map shows it, five units of a 1e-7 degree west of Greenwich. */
static void map(void) {
    static uint8_t memory[TL_REGISTER_SIZE], out[TL_MAP_SIZE];
    uint8_t r[TL_RECORD_SIZE];
    show_text("map of nothing", tl_register_map(memory, sizeof memory, out, sizeof out), out);
    puts("");
    tl_fields fields = fields_of(2, STEP, VARIANCE);
    fields.lon = -5;
    must(tl_record_of(&fields, r));
    show("report to be shown", tl_register_report(memory, sizeof memory, 1, r, sizeof r));
    show_text("map", tl_register_map(memory, sizeof memory, out, sizeof out), out);
    puts("");
    show("map into too little", tl_register_map(memory, sizeof memory, out, TL_MAP_SIZE - 1));
    show("map of too little", tl_register_map(memory, sizeof memory - 1, out, TOO_LITTLE));
}

/* A register is turned for an archive and turned back, and its board computed from what came back. */
static void archive(void) {
    static uint8_t memory[TL_REGISTER_SIZE], columns[TL_REGISTER_SIZE], back[TL_REGISTER_SIZE], out[TL_BOARD_SIZE];
    uint8_t r[TL_RECORD_SIZE];
    write_record(r, 2, STEP);
    show("report to be archived", tl_register_report(memory, sizeof memory, 4, r, sizeof r));
    show("columns", tl_register_columns(memory, sizeof memory, columns, sizeof columns));
    /* The record's ninth byte is the first of its latitude: byte 8 of place 0 is at 8 * 96. */
    printf("byte 8 of place 0: %d and %d\n", memory[TL_REGISTER_RECORDS_AT + TL_RECORD_LAT_AT],
           columns[TL_REGISTER_RECORDS_AT + TL_RECORD_LAT_AT * TL_MAX_RECORDS]);
    show("turned back", tl_register_uncolumns(columns, sizeof columns, back, sizeof back));
    printf("the same bytes: %s\n", memcmp(memory, back, sizeof memory) == 0 ? "yes" : "no");
    show_text("board of what came back", tl_board(TL_MANAGER, back, sizeof back, out, sizeof out), out);
    show("columns of too little", tl_register_columns(memory, sizeof memory - 1, columns, sizeof columns));
}

static void show_session(uint8_t memory[TL_REGISTER_SIZE], const char *session) {
    static uint8_t answers[TL_SESSION_SIZE];
    uint8_t reason[TL_REASON_SIZE];
    const uint8_t *input = (const uint8_t *)session;
    uint32_t returned = tl_register_session(memory, TL_REGISTER_SIZE, input, strlen(session), answers, sizeof answers);
    if (returned % TL_ANSWER_LINE_SIZE == 0) {
        show_text("session, answers", returned, answers);
    } else {
        show("session", returned);
        show_text("reason", tl_session_reason(input, strlen(session), reason), reason);
    }
}

/* Operations as lines, in one call. Of a session with a bad line nothing is performed, and there is a reason. */
static void sessions(void) {
    static uint8_t memory[TL_REGISTER_SIZE];
    show_session(memory, "op=convict\nengine=7\nop=convict\nengine=32\n");
    show_session(memory, "op=convict\nengine=8\nop=convict\nengine=08\n");
    printf("convicted %08" PRIx64 "\n", get(memory + TL_REGISTER_CONVICTED_AT, 4));
}

/* Fix i has i + 1 receivers and lies i steps north: the first disagrees with the third, and the second with none. */
static void track(const int order[FIXES]) {
    static uint8_t memory[TL_TRACK_SIZE], shelf[TL_SHELF_SIZE], out[TL_LISTING_SIZE];
    uint8_t r[TL_RECORD_SIZE];
    memset(memory, 0, sizeof memory);
    memset(shelf, 0, sizeof shelf);
    for (int i = 0; i < FIXES; i++) {
        write_record(r, order[i] + 1, STEP * order[i]);
        uint32_t answer = tl_track_report(memory, sizeof memory, shelf, sizeof shelf, 1, r, sizeof r);
        printf("track, fix %d: answer %" PRIu32 " (%s)\n", order[i] + 1, answer, tl_answer_name(answer));
    }
    const uint8_t *last = memory + TL_TRACK_TRANSMISSIONS_AT + (memory[TL_TRACK_TRANSMISSION_COUNT_AT] - 1) * TL_TRANSMISSION_SIZE;
    const uint8_t *served = last + TL_TRANSMISSION_FIXES_AT + TL_FIX_RECORD_AT;
    printf("contested %" PRIu64 ", served %" PRIu64 " north, %d refused\n", get(memory + TL_TRACK_CONTESTED_AT, 8),
           get(served + TL_RECORD_LAT_AT, 4), last[TL_TRANSMISSION_REFUSED_COUNT_AT]);
    show_text("listing", tl_track_listing(memory, sizeof memory, out, sizeof out), out);
}

static void disputes(void) {
    static uint8_t memory[TL_TRACK_SIZE], shelf[TL_SHELF_SIZE];
    uint8_t inputs[TL_INPUTS_SIZE] = {0};
    show("track, summary", tl_track_summary(memory, sizeof memory, shelf, sizeof shelf, 1, MODEL, SPEC, inputs, sizeof inputs));
    show("track, summary of model 64",
         tl_track_summary(memory, sizeof memory, shelf, sizeof shelf, 1, TL_MAX_MODEL + 1, SPEC, inputs, sizeof inputs));
    show("track, conviction", tl_track_conviction(memory, sizeof memory, shelf, sizeof shelf, 1));
    show("track, summary", tl_track_summary(memory, sizeof memory, shelf, sizeof shelf, 1, MODEL, SPEC, inputs, sizeof inputs));
}

/* A fix that comes before its model waits on the shelf; the summary takes it from there into the track. */
static void waiting(void) {
    static uint8_t memory[TL_TRACK_SIZE], shelf[TL_SHELF_SIZE], out[TL_LISTING_SIZE];
    uint8_t r[TL_RECORD_SIZE], inputs[TL_INPUTS_SIZE] = {0};
    const uint8_t model = MODEL;
    tl_fields fields = fields_of(2, 0, VARIANCE);
    fields.models = &model;
    fields.models_len = 1;
    fields.spec = SPEC;
    must(tl_record_of(&fields, r));
    show("track, a fix before its model", tl_track_report(memory, sizeof memory, shelf, sizeof shelf, 1, r, sizeof r));
    const uint8_t *place = shelf + TL_SHELF_PLACES_AT;
    printf("waiting: %d, for model %d, of engine %d\n", shelf[TL_SHELF_COUNT_AT], place[TL_WAITING_MODEL_AT], place[TL_WAITING_ENGINE_AT]);
    show("track, the summary", tl_track_summary(memory, sizeof memory, shelf, sizeof shelf, 2, MODEL, SPEC, inputs, sizeof inputs));
    printf("waiting: %d\n", shelf[TL_SHELF_COUNT_AT]);
    show_text("listing", tl_track_listing(memory, sizeof memory, out, sizeof out), out);
    show("track, a shelf of too little", tl_track_conviction(memory, sizeof memory, shelf, sizeof shelf - 1, 1));
}

/* One fix of one receiver, with one digit for each number: the shortest board that is not empty. */
static void shortest(void) {
    uint8_t memory[TL_REGISTER_SIZE] = {0}, out[TL_BOARD_SIZE], r[TL_RECORD_SIZE] = {0};
    uint32_t length = tl_board(TL_MANAGER, memory, sizeof memory, out, sizeof out);
    r[TL_RECORD_HAS_HEIGHT_AT] = 1;
    r[TL_RECORD_MESSAGE_LENGTH_AT] = TL_SHORT_MESSAGE;
    r[TL_RECORD_TAG_COUNT_AT] = 1;
    r[TL_RECORD_USED_AT] = 1;
    printf("an empty board: %" PRIu32 " bytes; at least %d otherwise\n", length, TL_MIN_LENGTH);
    show("one fix", tl_register_report(memory, sizeof memory, 0, r, sizeof r));
    show_text("the shortest board", tl_board(TL_MANAGER, memory, sizeof memory, out, sizeof out), out);
}

int main(void) {
    static const int smallest_first[FIXES] = {0, 1, 2}, largest_first[FIXES] = {2, 0, 1};
    sizes();
    hash();
    agreement("30 m north", STEP, VARIANCE);
    agreement("60 m north", 2 * STEP, VARIANCE);
    agreement("the same place, variances of zero", 0, 0.0);
    agreement("1 cm north, variances of 1e-320", 1, 1e-320);
    decide();
    orders();
    reports();
    map();
    archive();
    sessions();
    track(smallest_first);
    track(largest_first);
    disputes();
    waiting();
    shortest();
    return 0;
}
