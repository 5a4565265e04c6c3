/* Six engines report to one window, one of them 90 different records. Without a share for each engine the register fills, and what it
 * refuses depends on the order. With shares the engine that reports more than its own is convicted in this window's register, and both
 * rooms hold the same. */
#include "records.h"

#define ENGINES 6
#define SHARE (TL_MAX_RECORDS / ENGINES)
#define FLOODER ENGINES
#define FLOOD 90
#define USUAL 12
#define REPORTS (FLOOD + (ENGINES - 1) * USUAL)

struct report {
    uint32_t engine;
    uint8_t record[TL_RECORD_SIZE];
};

static struct report reports[REPORTS];

static void make_reports(void) {
    struct report *next = reports;
    for (int i = 0; i < FLOOD; i++, next++) {
        next->engine = FLOODER;
        write_record(next->record, 1000 + i, START + (uint64_t)i * 40000000, 481370000);
    }
    for (uint32_t e = 1; e < ENGINES; e++)
        for (int i = 0; i < USUAL; i++, next++) {
            next->engine = e;
            write_record(next->record, i, START + (uint64_t)i * 300000000 + e, 481370000 + 1800 * i);
        }
}

static uint32_t plain(uint8_t *memory, const struct report *r) {
    return tl_register_report(memory, TL_REGISTER_SIZE, r->engine, r->record, sizeof r->record);
}

/* A record that its engine has reported already takes no place. Another is one too many where the share is used up. */
static uint32_t within_share(uint8_t *memory, const struct report *r) {
    int own = 0;
    for (uint64_t i = 0; i < held_count(memory); i++) {
        const uint8_t *place = held(memory, i);
        if (!(get(place + TL_HELD_SIGNERS_AT, TL_SIGNERS_SIZE) >> r->engine & 1)) continue;
        if (memcmp(place + TL_HELD_RECORD_AT, r->record, sizeof r->record) == 0) return plain(memory, r);
        own++;
    }
    return own < SHARE ? plain(memory, r) : tl_register_conviction(TL_MANAGER, memory, TL_REGISTER_SIZE, r->engine);
}

static uint8_t rooms[2][TL_REGISTER_SIZE], boards[2][TL_BOARD_SIZE];

static void run(const char *name, uint32_t (*give)(uint8_t *, const struct report *)) {
    uint32_t lengths[2];
    printf("%s\n", name);
    for (int room = 0; room < 2; room++) {
        int full = 0, convicted = 0;
        memset(rooms[room], 0, sizeof rooms[room]);
        for (int i = 0; i < REPORTS; i++) {
            uint32_t answer = give(rooms[room], &reports[room == 0 ? i : REPORTS - 1 - i]);
            full += answer == TL_FULL;
            convicted += answer == TL_ENGINE_CONVICTED;
        }
        lengths[room] = tl_board(TL_MANAGER, rooms[room], sizeof rooms[room], boards[room], sizeof boards[room]);
        printf("%s: %d reports, %d answered %d (%s), %d answered %d (%s), %" PRIu64 " records held\n", room == 0 ? "north" : "south", REPORTS, full,
               TL_FULL, tl_answer_name(TL_FULL), convicted, TL_ENGINE_CONVICTED, tl_answer_name(TL_ENGINE_CONVICTED), held_count(rooms[room]));
    }
    bool same = lengths[0] == lengths[1] && memcmp(boards[0], boards[1], lengths[0]) == 0;
    printf("boards %s\n", same ? "are equal" : "differ");
}

int main(void) {
    make_reports();
    run("without shares", plain);
    run("with shares", within_share);
    return 0;
}
