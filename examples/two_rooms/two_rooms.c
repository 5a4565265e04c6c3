// Two control rooms get the reports of four engines over ten minutes, each in its own order, with copies and late ones, and cut them
// by transmit time into windows with a register each. Half way engine 7 is convicted. In the end all boards are equal.
#include <stdio.h>
#include <stdlib.h>
#include <string.h>
#include "toastlagoon.h"
#define SIZED(memory) memory, sizeof memory
enum { HEARD, READING, LINK, LATE, COPY, TIMES = 1200, WINDOWS = 150, ENGINES = 4, LIAR = 3, MODEL = 5 };
static const struct { uint32_t number, tags, first; } engines[ENGINES] = {{1, 3, 101}, {2, 4, 102}, {3, 4, 101}, {7, 5, 103}};
static const uint64_t second = 1000000000, start = 1731679200000000000;
static struct arrival { uint64_t at, t, e; } got[2 * TIMES * ENGINES];
static uint8_t rooms[2][WINDOWS][TL_REGISTER_SIZE], boards[2][TL_BOARD_SIZE];
static uint64_t drawn(uint64_t kind, uint64_t room, uint64_t t, uint64_t e) { // a number that depends on nothing but these
    uint64_t x = (((kind * 4 + room) * 65536 + t) * 64 + e + 1) * 0x9e3779b97f4a7c15;
    x = (x ^ (x >> 30)) * 0xbf58476d1ce4e5b9, x = (x ^ (x >> 27)) * 0x94d049bb133111eb;
    return x ^ (x >> 31);
}
static uint64_t time_of(uint64_t t, uint64_t e) { return start + t * second / 2 + second / 10 + drawn(READING, 0, t, e) % 2000; }
static void must(uint32_t answer) { if (answer != TL_OK) exit(fprintf(stderr, "%s\n", tl_answer_name(answer)) > 0); }
static int earlier(const void *a, const void *b) { uint64_t x = *(const uint64_t *)a, y = *(const uint64_t *)b; return (x > y) - (x < y); }
static void write_record(uint8_t record[TL_RECORD_SIZE], uint64_t t, uint64_t e) {
    const uint8_t message[TL_SHORT_MESSAGE] = {0x8d, 0x3c, 0x6d, 0xd0, (uint8_t)t, (uint8_t)(t >> 8), 0}, model = MODEL;
    const uint64_t f = engines[e].first, tags[] = {f, f + 1, f + 2, f + 3, f + 4};
    must(tl_record_of(&(tl_fields){.time = time_of(t, e), .lat = (int32_t)(481370000 + 1800 * t + 100 * e + (e == LIAR ? 1000000 : 0)),
        .lon = 115820000, .has_height = true, .height = 312400, .message = message, .message_len = sizeof message, .tags = tags,
        .tags_len = engines[e].tags, .used = (1u << engines[e].tags) - 1, .models = &model, .models_len = e != LIAR, .spec = 1,
        .covariance = {100, 0, 0, 100, 0, 100}}, record));
}
static void run(uint64_t room, const char *name) { // each has the summaries, and from half way on the conviction
    uint8_t record[TL_RECORD_SIZE], inputs[TL_INPUTS_SIZE] = {0};
    size_t count = 0, refused = 0;
    for (uint64_t t = 0, e = 0; t < TIMES; e = (e + 1) % ENGINES, t += e == 0) {
        const uint64_t late = drawn(LATE, room, t, e), more = late % 20 == 0 ? late / 20 % (60 * second) : 0;
        const uint64_t at = time_of(t, e) + second / 20 + drawn(LINK, room, t, e) % second + more;
        const uint64_t copies = drawn(HEARD, 0, t, e) % 16 == 0 ? 0 : drawn(COPY, room, t, e) % 25 == 0 ? 2 : 1;
        for (uint64_t c = 0; c < copies; c++) got[count++] = (struct arrival){at + c * second, t, e};
    }
    qsort(got, count, sizeof *got, earlier);
    for (size_t i = 0; i < count; i++) {
        uint8_t(*window)[TL_REGISTER_SIZE] = &rooms[room][(time_of(got[i].t, got[i].e) - start) / (4 * second)];
        for (uint32_t engine = 1; engine <= 3; engine++) must(tl_register_summary(SIZED(*window), engine, MODEL, 1, SIZED(inputs)));
        for (int w = 0; w < WINDOWS && i == count / 2 + 200 * room; w++)
            must(tl_register_conviction(TL_MANAGER, SIZED(rooms[room][w]), engines[LIAR].number));
        write_record(record, got[i].t, got[i].e);
        refused += tl_register_report(SIZED(*window), engines[got[i].e].number, SIZED(record)) == TL_ENGINE_CONVICTED;
    }
    const char *words = tl_answer_name(TL_ENGINE_CONVICTED);
    printf("%s: %zu reports, %zu answered 0 (done), %zu answered 4 (%s)\n", name, count, count - refused, refused, words);
}
int main(void) {
    int same = 0, equal = 0;
    run(0, "north"), run(1, "south");
    for (int w = 0; w < WINDOWS; w++) {
        const uint32_t north = tl_board(TL_MANAGER, SIZED(rooms[0][w]), SIZED(boards[0]));
        const uint32_t south = tl_board(TL_MANAGER, SIZED(rooms[1][w]), SIZED(boards[1]));
        same += memcmp(rooms[0][w], rooms[1][w], sizeof rooms[0][w]) == 0;
        equal += north == south && memcmp(boards[0], boards[1], north) == 0;
    }
    printf("%d windows, %d hold the same in both rooms, %s\n", WINDOWS, same, equal == WINDOWS ? "all boards are equal" : "boards differ");
}
