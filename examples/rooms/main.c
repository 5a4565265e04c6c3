/* Three rooms over lossy links, which convict at different moments, and how they come to the same again. Each report, summary and conviction
 * is made in one place and sent to the others, and now and then it is lost. Then, in rounds, each room sends to each other what that one
 * lacks (tl_register_lacks), over links that lose more still, and whoever gets such a packet joins it (tl_register_join). A packet is itself
 * a register, so it may come late, twice, or in any order; what is lost is lacking in the next round. In the end the three registers have the
 * same bytes, and so do their boards. */
#include <inttypes.h>
#include <stdbool.h>
#include <stdio.h>
#include <stdlib.h>
#include <string.h>

#include "toastlagoon.h"

#define SECOND UINT64_C(1000000000)
#define START (UINT64_C(1731679200) * SECOND)
#define TRANSMISSIONS 20
#define ENGINES 4
#define MODEL 5

enum { NORTH, SOUTH, COAST, ROOMS };
static const char *const names[ROOMS] = {"north", "south", "coast"};
static uint8_t rooms[ROOMS][TL_REGISTER_SIZE];
static uint8_t boards[ROOMS][TL_BOARD_SIZE];

/* Whether a link loses something: one time in `odds`. */
static bool lost(uint32_t odds) {
    static uint64_t x = 1;
    x = x * UINT64_C(6364136223846793005) + UINT64_C(1442695040888963407);
    return (x >> 33) % odds == 0;
}

static uint32_t number(const uint8_t *at, int bytes) {
    uint32_t value = 0;
    for (int i = 0; i < bytes; i++) value |= (uint32_t)at[i] << (8 * i);
    return value;
}

/* The fix of a transmission by an engine, which has as many receivers as its number says. */
static void report(uint32_t engine, int transmission) {
    uint8_t r[TL_RECORD_SIZE];
    const uint8_t model = MODEL, message[TL_SHORT_MESSAGE] = {(uint8_t)transmission};
    uint64_t tags[ENGINES];
    for (uint32_t i = 0; i < engine; i++) tags[i] = 101 + i;
    tl_fields fields = {.time = START + (uint64_t)transmission * 10 * SECOND, .lat = 481370000 + 1800 * transmission, .lon = 115820000,
                        .message = message, .message_len = sizeof message, .tags = tags, .tags_len = engine, .used = (1u << engine) - 1};
    if (transmission % 4 == 0) {
        fields.models = &model;
        fields.models_len = 1;
        fields.spec = 1;
    }
    if (tl_record_of(&fields, r) != TL_OK) exit(1);
    for (int i = 0; i < ROOMS; i++)
        if (!lost(8)) tl_register_report(rooms[i], TL_REGISTER_SIZE, engine, r, sizeof r);
}

static void summary(uint32_t engine) {
    const uint8_t inputs[TL_INPUTS_SIZE] = {0};
    for (int i = 0; i < ROOMS; i++)
        if (!lost(3)) tl_register_summary(rooms[i], TL_REGISTER_SIZE, engine, MODEL, 1, inputs, sizeof inputs);
}

/* A conviction is made in one room, and reaches the others only by what they exchange. */
static void convict(int room, uint32_t engine) {
    if (tl_register_conviction(TL_MANAGER, rooms[room], TL_REGISTER_SIZE, engine) != TL_OK) exit(1);
}

static uint32_t bits(uint32_t mask) {
    uint32_t count = 0;
    for (; mask != 0; mask &= mask - 1) count++;
    return count;
}

static bool all_equal(void) {
    return memcmp(rooms[NORTH], rooms[SOUTH], TL_REGISTER_SIZE) == 0 && memcmp(rooms[NORTH], rooms[COAST], TL_REGISTER_SIZE) == 0;
}

static void show(const char *when) {
    uint32_t lengths[ROOMS];
    bool alike = true;
    printf("%s\n", when);
    for (int i = 0; i < ROOMS; i++) {
        lengths[i] = tl_board(TL_MANAGER, rooms[i], TL_REGISTER_SIZE, boards[i], TL_BOARD_SIZE);
        alike = alike && lengths[i] == lengths[0] && memcmp(boards[i], boards[0], lengths[0]) == 0;
        printf("  %s: records %" PRIu32 ", summaries %" PRIu32 ", convicted %08" PRIx32 "\n", names[i], number(rooms[i] + TL_REGISTER_RECORD_COUNT_AT, 2),
               number(rooms[i] + TL_REGISTER_SUMMARY_COUNT_AT, 2), number(rooms[i], 4));
    }
    printf("  registers %s, boards %s\n", all_equal() ? "equal" : "different", alike ? "equal" : "different");
}

/* What one room sends to another: what that one lacks, which is a register too. */
static void send(int round, int from, int to) {
    static uint8_t packet[TL_REGISTER_SIZE];
    if (tl_register_lacks(rooms[to], TL_REGISTER_SIZE, rooms[from], TL_REGISTER_SIZE, packet, sizeof packet) != TL_OK) exit(1);
    uint32_t summaries = number(packet + TL_REGISTER_SUMMARY_COUNT_AT, 2), records = number(packet + TL_REGISTER_RECORD_COUNT_AT, 2), reports = 0;
    for (uint32_t i = 0; i < records; i++) reports += bits(number(packet + TL_REGISTER_RECORDS_AT + TL_HELD_SIZE * i + TL_RECORD_SIZE, 4));
    uint32_t convictions = bits(number(packet, 4));
    if (summaries + reports + convictions == 0) return;
    bool is_lost = lost(3);
    printf("  round %d, %s to %s: convictions %" PRIu32 ", summaries %" PRIu32 ", reports %" PRIu32 "%s\n", round, names[from], names[to], convictions, summaries,
           reports, is_lost ? ", lost" : "");
    if (!is_lost && tl_register_join(rooms[to], TL_REGISTER_SIZE, packet, sizeof packet) != TL_OK) exit(1);
}

int main(void) {
    for (int t = 0; t < TRANSMISSIONS; t++) {
        for (uint32_t e = 1; e <= ENGINES; e++) report(e, t);
        if (t % 8 == 0) summary((uint32_t)(t / 8) + 1);
        if (t == 5) convict(NORTH, 4);
        if (t == 15) convict(COAST, 3);
    }
    show("before");
    for (int round = 1; !all_equal(); round++)
        for (int from = 0; from < ROOMS; from++)
            for (int to = 0; to < ROOMS; to++)
                if (from != to) send(round, from, to);
    show("after");
    return 0;
}
