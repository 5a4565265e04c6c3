/* How much stack the library's calls take. A stack is painted, a call is made on it, and the bytes from the first that was written to
 * the top count, less those of a call that does nothing. */
#include <stdio.h>
#include <stdlib.h>
#include <string.h>
#include <ucontext.h>

#include "toastlagoon.h"

#define STACK_SIZE (4u << 20)

static uint8_t stack[STACK_SIZE] __attribute__((aligned(64)));
static ucontext_t here, there;

/* How deep a call writes into a stack of so many bytes of one paint. */
static size_t depth_with(void (*call)(void), uint8_t paint) {
    memset(stack, paint, sizeof stack);
    getcontext(&there);
    there.uc_stack.ss_sp = stack;
    there.uc_stack.ss_size = sizeof stack;
    there.uc_link = &here;
    makecontext(&there, call, 0);
    swapcontext(&here, &there);
    size_t at = 0;
    while (at < sizeof stack && stack[at] == paint) at++;
    if (at == 0) {
        fprintf(stderr, "stack: %u bytes are not enough\n", STACK_SIZE);
        exit(1);
    }
    return sizeof stack - at;
}

/* Two paints, since a call may write the paint itself. */
static size_t depth(void (*call)(void)) {
    size_t a = depth_with(call, 0xa5), b = depth_with(call, 0x5a);
    return a < b ? b : a;
}

static void put(uint8_t *at, int bytes, uint64_t value) {
    for (int i = 0; i < bytes; i++) at[i] = (uint8_t)(value >> (8 * i));
}

static void put_double(uint8_t *at, double x) {
    uint64_t bits;
    memcpy(&bits, &x, sizeof bits);
    put(at, 8, bits);
}

/* The i-th of nested fixes: it has i % TL_MAX_TAGS + 1 tags, and lies so far north that some disagree with others. */
static void write_record(uint8_t r[TL_RECORD_SIZE], int i) {
    int tags = i % TL_MAX_TAGS + 1;
    memset(r, 0, TL_RECORD_SIZE);
    put(r + TL_RECORD_TIME_AT, 8, 1000);
    put(r + TL_RECORD_LAT_AT, 4, 2700u * (uint32_t)i);
    r[TL_RECORD_HAS_HEIGHT_AT] = 1;
    put(r + TL_RECORD_HEIGHT_AT, 4, 1500);
    r[TL_RECORD_MESSAGE_LENGTH_AT] = TL_SHORT_MESSAGE;
    r[TL_RECORD_MESSAGE_AT] = 0x8d;
    r[TL_RECORD_TAG_COUNT_AT] = (uint8_t)tags;
    put(r + TL_RECORD_USED_AT, 4, (1u << tags) - 1);
    for (int k = 0; k < tags; k++) put(r + TL_RECORD_TAGS_AT + TL_TAG_SIZE * k, TL_TAG_SIZE, (uint64_t)k + 1);
    put_double(r + TL_RECORD_XX_AT, 100.0);
    put_double(r + TL_RECORD_YY_AT, 100.0);
    put_double(r + TL_RECORD_ZZ_AT, 100.0);
}

static uint8_t items[TL_MAX_ITEMS * TL_ITEM_SIZE], answer[TL_ANSWER_SIZE];
static uint8_t memory[TL_REGISTER_SIZE], joined[TL_REGISTER_SIZE], out[TL_BOARD_SIZE];
static int count;

static void nothing(void) {}

static void decide(void) { tl_decide(items, (size_t)count * TL_ITEM_SIZE, answer); }

static void decide_any(void) { tl_decide_any(items, (size_t)count * TL_ITEM_SIZE, answer); }

static void board(void) { tl_board(TL_MANAGER, memory, sizeof memory, out, sizeof out); }

static void map(void) { tl_register_map(memory, sizeof memory, out, sizeof out); }

static void fixes(void) { tl_register_fixes(memory, sizeof memory, out, sizeof out); }

/* Without engine 4 all records are still on the board, and without engine 3 every other one; the deeper call counts. */
static void preview(void) {
    tl_register_preview(TL_MANAGER, memory, sizeof memory, 4, out, sizeof out);
    tl_register_preview(TL_MANAGER, memory, sizeof memory, 3, out, sizeof out);
}

static uint8_t performed[TL_SESSION_SIZE], reason[TL_REASON_SIZE];

/* An operation of each kind. */
static const char session[] =
    "op=summary\nengine=1\nmodel=5\nspec=3\ninputs=0000000000000000000000000000000000000000000000000000000000000000\n"
    "op=report\nengine=3\ntime=1000\nlat=500000000\nlon=100000000\nheight=1500\nmessage=8d000000000000\n"
    "tags=1,2,3,4,5,6,7,8,9,10,11,12,13,14,15,16,17,18,19,20,21,22,23,24\nused=3\nmodels=1,2,3,4\nspec=3\n"
    "cov=000000000000000000000000000000000000000000000000000000000000000000000000000000000000000000000000\nop=convict\nengine=3\n";

/* On as many records as the register holds, so that a report, a summary and a conviction move what is there. */
static void perform(void) {
    memcpy(joined, memory, sizeof joined);
    if (tl_register_session(joined, sizeof joined, (const uint8_t *)session, sizeof session - 1, performed, sizeof performed) != 27) exit(1);
}

/* A line without its line feed, of which the most bytes are shown. */
static void say_why(void) {
    static uint8_t bad[200];
    if (tl_session_reason(bad, sizeof bad, reason) == 0) exit(1);
}

static uint8_t turned[TL_REGISTER_SIZE];

static void columns(void) { tl_register_columns(memory, sizeof memory, turned, sizeof turned); }

static void uncolumns(void) { tl_register_uncolumns(memory, sizeof memory, turned, sizeof turned); }

static uint8_t made[TL_RECORD_SIZE], model_inputs[TL_INPUTS_SIZE], identity[TL_IDENTITY_SIZE];

static void record_write(void) {
    static const uint8_t message[TL_LONG_MESSAGE] = {0x8d};
    static const uint8_t models[TL_MAX_CITED] = {1, 2, 3, 4};
    uint64_t tags[TL_MAX_TAGS];
    for (int i = 0; i < TL_MAX_TAGS; i++) tags[i] = (uint64_t)i;
    tl_fields fields = {.time = 1000, .has_height = true, .height = 1500, .message = message, .message_len = sizeof message, .tags = tags,
                        .tags_len = TL_MAX_TAGS, .used = 1, .models = models, .models_len = sizeof models};
    tl_record_of(&fields, made);
}

static void record_identity(void) { tl_record_identity(made, sizeof made, model_inputs, identity); }

static void register_inputs(void) {
    tl_register_inputs(memory, sizeof memory, memory + TL_REGISTER_RECORDS_AT, TL_RECORD_SIZE, model_inputs);
}

static void join_registers(void) {
    memcpy(joined, memory, sizeof joined);
    tl_register_join(joined, sizeof joined, memory, sizeof memory);
}

static void lacks(void) { tl_register_lacks(memory, sizeof memory, joined, sizeof joined, turned, sizeof turned); }

static void write_items(void) {
    for (int i = 0; i < TL_MAX_ITEMS; i++) {
        uint8_t *item = items + i * TL_ITEM_SIZE;
        write_record(item + TL_ITEM_RECORD_AT, i);
        item[TL_ITEM_IDENTITY_AT] = (uint8_t)i;
        item[TL_ITEM_CONSISTENT_AT] = 1;
    }
}

/* Engine 3 signs all records, and engine 4 every other one, the first among them. */
static void write_register(void) {
    uint8_t r[TL_RECORD_SIZE];
    memset(memory, 0, sizeof memory);
    for (int i = 0; i < count; i++) {
        write_record(r, i);
        if (tl_register_report(memory, sizeof memory, 3, r, sizeof r) != TL_OK) exit(1);
        if (i % 2 == 0 && tl_register_report(memory, sizeof memory, 4, r, sizeof r) != TL_OK) exit(1);
    }
}

/* A track of 8 transmissions of 5 fixes that stand and 4 refused, and the one that a call is made on. */
static uint8_t full[TL_TRACK_SIZE], track[TL_TRACK_SIZE];

/* The shelf beside it; and one on which as many fixes wait for model 6 as it holds, in 8 transmissions of 8. */
static uint8_t shelf[TL_SHELF_SIZE], full_shelf[TL_SHELF_SIZE];

/* The k-th fix of a transmission: five have a tag of their own, the others are larger than the first and lie too far from it. */
static void write_fix(uint8_t r[TL_RECORD_SIZE], int transmission, int k) {
    int refused = k >= TL_MAX_STANDING, tags = refused ? 3 : 2;
    uint64_t base = 1000u * (uint64_t)transmission;
    write_record(r, tags - 1);
    put(r, 8, 1000 + (uint64_t)transmission);
    put(r + 8, 4, refused ? 5400 : 0);
    put(r + TL_RECORD_TAGS_AT, TL_TAG_SIZE, base + 1);
    put(r + TL_RECORD_TAGS_AT + TL_TAG_SIZE, TL_TAG_SIZE, base + (refused ? 10 : 10 + (uint64_t)k));
    if (refused) put(r + TL_RECORD_TAGS_AT + 2 * TL_TAG_SIZE, TL_TAG_SIZE, base + 20 + (uint64_t)k);
    r[TL_RECORD_MODEL_COUNT_AT] = 1;
    r[TL_RECORD_MODELS_AT] = 5;
}

static uint32_t say_of(uint8_t *memory, uint32_t engine, uint32_t model, uint8_t first) {
    uint8_t inputs[32] = {first};
    return tl_track_summary(memory, TL_TRACK_SIZE, shelf, sizeof shelf, engine, model, 0, inputs, sizeof inputs);
}

static uint32_t say(uint8_t *memory, uint32_t engine, uint8_t first) { return say_of(memory, engine, 5, first); }

static void write_track(void) {
    uint8_t r[TL_RECORD_SIZE];
    if (say(full, 1, 1) != TL_OK) exit(1);
    for (int t = 0; t < TL_MAX_TRANSMISSIONS; t++) {
        for (int k = 0; k < TL_MAX_STANDING + TL_MAX_REFUSED; k++) {
            write_fix(r, t, k);
            if (tl_track_report(full, sizeof full, shelf, sizeof shelf, 2, r, sizeof r) < TL_CHANGED) exit(1);
        }
        const uint8_t *block = full + TL_TRACK_TRANSMISSIONS_AT + TL_TRANSMISSION_SIZE * t;
        if (block[0] != TL_MAX_STANDING || block[1] != TL_MAX_REFUSED) exit(1);
    }
}

static void join(void) {
    uint8_t r[TL_RECORD_SIZE];
    memcpy(track, full, sizeof track);
    write_fix(r, 0, 0);
    put(r + TL_RECORD_TAGS_AT + TL_TAG_SIZE, TL_TAG_SIZE, 30);
    tl_track_report(track, sizeof track, shelf, sizeof shelf, 2, r, sizeof r);
}

static void conviction(void) {
    memcpy(track, full, sizeof track);
    tl_track_conviction(track, sizeof track, shelf, sizeof shelf, 30);
}

static void dispute(void) {
    memcpy(track, full, sizeof track);
    say(track, 3, 2);
}

/* Fixes of transmissions that are held, which cite model 6 too; they agree with the first, and join it. */
static void write_early(uint8_t r[TL_RECORD_SIZE], int n) {
    write_fix(r, n / 8, 0);
    put(r + TL_RECORD_TAGS_AT + TL_TAG_SIZE, TL_TAG_SIZE, 1000u * (uint64_t)(n / 8) + 40 + (uint64_t)n % 8);
    r[TL_RECORD_MODEL_COUNT_AT] = 2;
    r[TL_RECORD_MODELS_AT + 1] = 6;
}

static void write_shelf(void) {
    uint8_t r[TL_RECORD_SIZE];
    for (int n = 0; n < TL_MAX_WAITING; n++) {
        write_early(r, n);
        if (tl_track_report(full, sizeof full, full_shelf, sizeof full_shelf, 2, r, sizeof r) != TL_WAITING) exit(1);
    }
}

static void wait(void) {
    uint8_t r[TL_RECORD_SIZE];
    memcpy(track, full, sizeof track);
    memset(shelf, 0, sizeof shelf);
    write_early(r, 0);
    tl_track_report(track, sizeof track, shelf, sizeof shelf, 2, r, sizeof r);
}

static void arrival(void) {
    memcpy(track, full, sizeof track);
    memcpy(shelf, full_shelf, sizeof shelf);
    say_of(track, 3, 6, 1);
}

static void throw_out(void) {
    memcpy(track, full, sizeof track);
    memcpy(shelf, full_shelf, sizeof shelf);
    tl_track_conviction(track, sizeof track, shelf, sizeof shelf, 2);
}

static void listing(void) { tl_track_listing(full, sizeof full, out, sizeof out); }

static void row(const char *what, void (*call)(void)) {
    printf("| %s | %zu |\n", what, depth(call) - depth(nothing));
}

static void line(const char *what, const char *of, void (*call)(void)) {
    char all[64];
    snprintf(all, sizeof all, "%s, %d %s", what, count, of);
    row(all, call);
}

int main(void) {
    static const int counts[] = {0, 1, 2, 4, 10, 11, 32, TL_MAX_ITEMS};
    printf("| call | stack, bytes |\n|---|---|\n");
    write_items();
    for (size_t i = 0; i < sizeof counts / sizeof *counts; i++) {
        count = counts[i];
        line("decide", "items", decide);
        line("decide in any order", "items", decide_any);
    }
    for (size_t i = 0; i < sizeof counts / sizeof *counts; i++) {
        count = counts[i];
        write_register();
        line("board", "records", board);
        line("map", "records", map);
        line("fixes", "records", fixes);
        line("preview", "records", preview);
    }
    row("columns of a register", columns);
    row("columns turned back", uncolumns);
    row("a record of what it says", record_write);
    row("identity of a record", record_identity);
    row("model inputs of a record, 96 records", register_inputs);
    row("session of each kind of operation, 96 records", perform);
    row("reason of a session", say_why);
    row("join of two registers, 96 records", join_registers);
    row("what a register lacks, 96 records", lacks);
    write_track();
    row("track report that joins 9 fixes, 72 held", join);
    row("track conviction, 72 fixes held", conviction);
    row("track summary that disputes, 72 fixes held", dispute);
    row("track listing, 72 fixes held", listing);
    write_shelf();
    row("track report that has to wait, 72 fixes held", wait);
    row("track summary for which 64 fixes wait, 72 held", arrival);
    row("track conviction that throws out 64, 72 fixes held", throw_out);
    return 0;
}
