/* Two control rooms get the reports of four engines over ten minutes, each in an order of its own, with copies and late ones. Each room
 * cuts the reports into windows of four seconds and has a register for each window. Half way one engine is convicted.
 *
 * A window is cut by the transmit time in the record, which is the same in both rooms, and not by arrival, which is not. Summaries and
 * convictions have no transmit time: each is given to every window's register, those that are open and those that are opened later.
 *
 * The same reports are then given in three ways that go wrong: without telling later windows of the conviction, cut by arrival, and not
 * cut at all. */
#include <inttypes.h>
#include <stdio.h>
#include <stdlib.h>
#include <string.h>

#include "toastlagoon.h"

#define SECOND UINT64_C(1000000000)
#define WINDOW (4 * SECOND)
#define START (UINT64_C(1731679200) * SECOND) /* the edge of a window */
#define EVERY (SECOND / 2)                    /* a transmission every half second: eight in a window */
#define ROOMS 2
#define TRANSMISSIONS 1200
#define WINDOWS 200
#define ENGINES 4
#define LIAR 3 /* its index; its number is 7 */
#define MODEL 5
#define SPEC 1
#define MAX_ARRIVALS (2 * TRANSMISSIONS * ENGINES)

/* An engine: its number, and the receivers that it hears. Any two have a receiver in common. */
static const struct engine {
    uint32_t number;
    int tags;
    uint64_t first_tag;
} engines[ENGINES] = {{1, 3, 101}, {2, 4, 102}, {3, 4, 101}, {7, 5, 103}};

struct arrival {
    uint64_t at;
    int transmission, engine;
};

struct room {
    const char *name;
    struct arrival arrivals[MAX_ARRIVALS];
    int count, copies, late;
    int summaries_at, conviction_at; /* before which arrival */
    uint8_t registers[WINDOWS][TL_REGISTER_SIZE];
    bool open[WINDOWS];
    bool summarized, convicted; /* what a window that is opened later has to be told */
    bool forgets;               /* and is not told of the conviction */
    int answers[TL_DROPPED + 1];
    int open_then, liar_before, liar_after;
};

static struct room rooms[ROOMS] = {{.name = "north", .summaries_at = 0}, {.name = "south", .summaries_at = 1000}};

enum way { BY_TRANSMIT_TIME, FORGETTING, BY_ARRIVAL, NOT_CUT, WAYS };
static const char *const ways[WAYS] = {"cut by transmit time", "cut by transmit time, later windows are not told of the conviction",
                                       "cut by arrival", "not cut"};

enum kind { HEARD, READING, LINK, LATE, COPY };

/* A number that depends on nothing but its arguments (the last step of splitmix64). */
static uint64_t drawn(enum kind kind, int room, int transmission, int engine) {
    uint64_t x = (((uint64_t)kind * 4 + (uint64_t)room) * 65536 + (uint64_t)transmission) * 64 + (uint64_t)engine + 1;
    x *= UINT64_C(0x9e3779b97f4a7c15);
    x = (x ^ (x >> 30)) * UINT64_C(0xbf58476d1ce4e5b9);
    x = (x ^ (x >> 27)) * UINT64_C(0x94d049bb133111eb);
    return x ^ (x >> 31);
}

/* Each engine reads the transmit time a little differently. */
static uint64_t transmit_time(int transmission, int engine) {
    return START + (uint64_t)transmission * EVERY + SECOND / 10 + drawn(READING, 0, transmission, engine) % 2000;
}

/* The aircraft flies north, 20 m each half second. The convicted engine puts it a tenth of a degree further, and cites no model. */
static void write_record(uint8_t r[TL_RECORD_SIZE], int transmission, int engine) {
    const struct engine *by = &engines[engine];
    const uint8_t model = MODEL, message[TL_SHORT_MESSAGE] = {0x8d, 0x3c, 0x6d, 0xd0, (uint8_t)transmission, (uint8_t)(transmission >> 8)};
    uint64_t tags[TL_MAX_TAGS];
    for (int i = 0; i < by->tags; i++) tags[i] = by->first_tag + (uint64_t)i;
    tl_fields fields = {.time = transmit_time(transmission, engine),
                        .lat = 481370000 + 1800 * transmission + 100 * engine + (engine == LIAR ? 1000000 : 0),
                        .lon = 115820000,
                        .has_height = true,
                        .height = 312400,
                        .message = message,
                        .message_len = sizeof message,
                        .tags = tags,
                        .tags_len = (size_t)by->tags,
                        .used = (1u << by->tags) - 1,
                        .covariance = {100, 0, 0, 100, 0, 100}};
    if (engine != LIAR) {
        fields.models = &model;
        fields.models_len = 1;
        fields.spec = SPEC;
    }
    if (tl_record_of(&fields, r) != TL_OK) exit(1);
}

/* ---- what arrives in a room, and when */

static int earlier(const void *a, const void *b) {
    const struct arrival *x = (const struct arrival *)a, *y = (const struct arrival *)b;
    if (x->at != y->at) return x->at < y->at ? -1 : 1;
    if (x->transmission != y->transmission) return x->transmission - y->transmission;
    return x->engine - y->engine;
}

/* One in sixteen is not heard by an engine, one in twenty comes up to a minute late, one in twenty-five comes twice. */
static void make_arrivals(struct room *room, int number) {
    for (int t = 0; t < TRANSMISSIONS; t++)
        for (int e = 0; e < ENGINES; e++) {
            if (drawn(HEARD, 0, t, e) % 16 == 0) continue;
            uint64_t time = transmit_time(t, e), at = time + SECOND / 20 + drawn(LINK, number, t, e) % SECOND;
            uint64_t late = drawn(LATE, number, t, e);
            if (late % 20 == 0) at += late / 20 % (60 * SECOND);
            room->arrivals[room->count++] = (struct arrival){at, t, e};
            if (at / WINDOW > time / WINDOW) room->late++;
            if (drawn(COPY, number, t, e) % 25 == 0) {
                room->arrivals[room->count++] = (struct arrival){at + SECOND, t, e};
                room->copies++;
            }
        }
    qsort(room->arrivals, (size_t)room->count, sizeof *room->arrivals, earlier);
    room->conviction_at = room->count / 2 + 200 * number;
}

/* ---- a room's windows */

static void tell_summaries(uint8_t *memory) {
    const uint8_t inputs[TL_INPUTS_SIZE] = {0};
    for (int e = 0; e < ENGINES; e++)
        if (e != LIAR && tl_register_summary(memory, TL_REGISTER_SIZE, engines[e].number, MODEL, SPEC, inputs, sizeof inputs) != TL_OK) exit(1);
}

static void tell_conviction(uint8_t *memory) {
    if (tl_register_conviction(TL_MANAGER, memory, TL_REGISTER_SIZE, engines[LIAR].number) != TL_OK) exit(1);
}

/* To every window that is open; `opened` tells the others. */
static void tell_all(struct room *room, void (*tell)(uint8_t *)) {
    for (int w = 0; w < WINDOWS; w++)
        if (room->open[w]) tell(room->registers[w]);
}

/* The register of a window. One that is new is told all that the others were. */
static uint8_t *opened(struct room *room, uint64_t window) {
    if (window >= WINDOWS) exit(1);
    uint8_t *memory = room->registers[window];
    if (!room->open[window]) {
        room->open[window] = true;
        memset(memory, 0, TL_REGISTER_SIZE);
        if (room->summarized) tell_summaries(memory);
        if (room->convicted && !room->forgets) tell_conviction(memory);
    }
    return memory;
}

static uint8_t text[ROOMS][TL_BOARD_SIZE + 1];

static uint32_t draw(const struct room *room, int window, uint8_t out[TL_BOARD_SIZE + 1]) {
    uint32_t length = room->open[window] ? tl_board(TL_MANAGER, room->registers[window], TL_REGISTER_SIZE, out, TL_BOARD_SIZE) : 0;
    if (length == TL_MALFORMED_REGISTER || length == TL_OUTPUT_TOO_SMALL) exit(1);
    out[length] = 0;
    return length;
}

static int occurrences(const char *in, const char *word) {
    int n = 0;
    for (const char *at = in; (at = strstr(at, word)) != NULL; at++) n++;
    return n;
}

/* How many windows show a fix of the convicted engine. */
static int liar_shown(const struct room *room) {
    int n = 0;
    for (int w = 0; w < WINDOWS; w++) {
        draw(room, w, text[0]);
        if (occurrences((const char *)text[0], "signers=00000080") > 0) n++;
    }
    return n;
}

static void convict(struct room *room) {
    for (int w = 0; w < WINDOWS; w++) room->open_then += room->open[w];
    room->liar_before = liar_shown(room);
    room->convicted = true;
    tell_all(room, tell_conviction);
    room->liar_after = liar_shown(room);
}

static uint64_t window_of(const struct arrival *a, enum way way) {
    if (way == NOT_CUT) return 0;
    return ((way == BY_ARRIVAL ? a->at : transmit_time(a->transmission, a->engine)) - START) / WINDOW;
}

static void begin(struct room *room) {
    memset(room->open, 0, sizeof room->open);
    memset(room->registers, 0, sizeof room->registers);
    memset(room->answers, 0, sizeof room->answers);
    room->summarized = room->convicted = false;
    room->open_then = 0;
}

static void run(struct room *room, enum way way) {
    uint8_t r[TL_RECORD_SIZE];
    begin(room);
    room->forgets = way == FORGETTING;
    for (int i = 0; i < room->count; i++) {
        const struct arrival *a = &room->arrivals[i];
        if (i == room->summaries_at) {
            room->summarized = true;
            tell_all(room, tell_summaries);
        }
        if (i == room->conviction_at) convict(room);
        uint8_t *memory = opened(room, window_of(a, way));
        write_record(r, a->transmission, a->engine);
        room->answers[tl_register_report(memory, TL_REGISTER_SIZE, engines[a->engine].number, r, sizeof r)]++;
    }
}

/* ---- what is printed */

static void print_arrivals(const struct room *room) {
    printf("%s: %d reports, %d of them copies, %d after the end of their window\n", room->name, room->count, room->copies, room->late);
}

static void print_answers(const struct room *room) {
    printf("%s: %d reports", room->name, room->count);
    for (uint32_t i = 0; i <= TL_DROPPED; i++)
        if (room->answers[i] > 0) printf(", %d answered %" PRIu32 " (%s)", room->answers[i], i, tl_answer_name(i));
    printf("\n");
}

static void print_conviction(const struct room *room) {
    printf("%s: of %d open windows engine 7 was on %d boards before its conviction, on %d after, and of all windows on %d in the end\n",
           room->name, room->open_then, room->liar_before, room->liar_after, liar_shown(room));
}

/* Compares the rooms window by window: the boards, and the registers but for the convicted engines, with which they begin. */
static void compare(void) {
    int windows = 0, boards = 0, registers = 0, most = 0, transmissions = 0, fixes = 0;
    const size_t past = TL_REGISTER_SUMMARY_COUNT_AT;
    for (int w = 0; w < WINDOWS; w++) {
        if (!rooms[0].open[w] && !rooms[1].open[w]) continue;
        uint32_t north = draw(&rooms[0], w, text[0]), south = draw(&rooms[1], w, text[1]);
        int records = rooms[0].registers[w][TL_REGISTER_RECORD_COUNT_AT];
        windows++;
        boards += north == south && memcmp(text[0], text[1], north) == 0;
        registers += memcmp(rooms[0].registers[w] + past, rooms[1].registers[w] + past, TL_REGISTER_SIZE - past) == 0;
        if (records > most) most = records;
        transmissions += occurrences((const char *)text[0], "transmission=");
        fixes += occurrences((const char *)text[0], "role=");
    }
    printf("%d windows, %d hold the same in both rooms, ", windows, registers);
    if (boards < windows)
        printf("boards differ\n");
    else
        printf("all boards are equal: %d transmissions, %d fixes, at most %d records in a window\n", transmissions, fixes, most);
}

int main(void) {
    for (int i = 0; i < ROOMS; i++) make_arrivals(&rooms[i], i);
    for (int i = 0; i < ROOMS; i++) print_arrivals(&rooms[i]);
    for (int way = 0; way < WAYS; way++) {
        printf("\n%s\n", ways[way]);
        for (int i = 0; i < ROOMS; i++) {
            run(&rooms[i], (enum way)way);
            print_answers(&rooms[i]);
            if (way <= FORGETTING) print_conviction(&rooms[i]);
        }
        compare();
    }
    return 0;
}
