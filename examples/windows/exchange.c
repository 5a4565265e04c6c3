/* What two rooms exchange to see whether they have the same of a window: the hash of the register from byte 4 on, and the set of convicted
 * engines beside it (its first four bytes). Not the board's hash: equal boards do not show that the rooms have the same. Here each room
 * gets almost the same of one window; the boards are equal, the exchange shows what differs, and then something that reaches both rooms
 * makes the boards differ. */
#include <inttypes.h>
#include <stdio.h>
#include <stdlib.h>
#include <string.h>

#include "toastlagoon.h"

#define SECOND UINT64_C(1000000000)
#define START (UINT64_C(1731679200) * SECOND)
#define MODEL 5
#define NO_MODEL 0

static uint8_t rooms[2][TL_REGISTER_SIZE];
static uint8_t boards[2][TL_BOARD_SIZE];
enum { NORTH, SOUTH, BOTH };

/* The fix of a transmission, of which there are ten in four seconds, each with a message of its own. */
static void report(int room, uint32_t engine, int transmission, uint8_t model) {
    uint8_t r[TL_RECORD_SIZE];
    const uint8_t message[TL_SHORT_MESSAGE] = {(uint8_t)transmission};
    const uint64_t tag = 101;
    tl_fields fields = {.time = START + (uint64_t)transmission * (2 * SECOND / 5),
                        .lat = 481370000 + 1800 * transmission,
                        .lon = 115820000,
                        .message = message,
                        .message_len = sizeof message,
                        .tags = &tag,
                        .tags_len = 1,
                        .used = 1};
    if (model != NO_MODEL) {
        fields.models = &model;
        fields.models_len = 1;
        fields.spec = 1;
    }
    if (tl_record_of(&fields, r) != TL_OK) exit(1);
    for (int i = 0; i < 2; i++)
        if (room == i || room == BOTH) tl_register_report(rooms[i], TL_REGISTER_SIZE, engine, r, sizeof r);
}

static void summary(uint32_t engine) {
    const uint8_t inputs[TL_INPUTS_SIZE] = {0};
    for (int i = 0; i < 2; i++)
        if (tl_register_summary(rooms[i], TL_REGISTER_SIZE, engine, MODEL, 1, inputs, sizeof inputs) != TL_OK) exit(1);
}

static void convict(int room, uint32_t engine) {
    for (int i = 0; i < 2; i++)
        if ((room == i || room == BOTH) && tl_register_conviction(TL_MANAGER, rooms[i], TL_REGISTER_SIZE, engine) != TL_OK) exit(1);
}

/* What a room sends: the hash of its register from byte 4 on, and its convicted set. */
struct state {
    uint8_t hash[TL_HASH_SIZE];
    uint32_t convicted;
};

static struct state state_of(const uint8_t *memory) {
    struct state s;
    const size_t past = TL_REGISTER_SUMMARY_COUNT_AT;
    tl_blake2s256(memory + past, TL_REGISTER_SIZE - past, s.hash);
    s.convicted = memory[0] | (uint32_t)memory[1] << 8 | (uint32_t)memory[2] << 16 | (uint32_t)memory[3] << 24;
    return s;
}

static void print_state(const char *name, const struct state *s) {
    printf("  %s sends ", name);
    for (int i = 0; i < 8; i++) printf("%02x", s->hash[i]);
    printf(".. convicted %08" PRIx32 "\n", s->convicted);
}

static void compare(const char *when) {
    struct state s[2] = {state_of(rooms[0]), state_of(rooms[1])};
    uint32_t n[2];
    for (int i = 0; i < 2; i++) n[i] = tl_board(TL_MANAGER, rooms[i], TL_REGISTER_SIZE, boards[i], TL_BOARD_SIZE);
    int board = n[0] == n[1] && memcmp(boards[0], boards[1], n[0]) == 0;
    int hash = memcmp(s[0].hash, s[1].hash, TL_HASH_SIZE) == 0, convicted = s[0].convicted == s[1].convicted;
    printf("%s\n", when);
    print_state("north", &s[0]);
    print_state("south", &s[1]);
    printf("  boards %s, hashes %s, convicted %s: %s\n", board ? "equal" : "differ", hash ? "equal" : "differ",
           convicted ? "equal" : "differ", hash && convicted ? "the rooms have the same" : "the rooms do not have the same");
}

static void begin(void) { memset(rooms, 0, sizeof rooms); }

int main(void) {
    begin();
    for (int t = 0; t < 9; t++) report(NORTH, 1, t, NO_MODEL);
    report(NORTH, 2, 9, NO_MODEL);
    report(SOUTH, 2, 9, NO_MODEL);
    for (int t = 8; t >= 0; t--) report(SOUTH, 1, t, NO_MODEL);
    compare("ten transmissions, in two orders");

    begin();
    for (int t = 0; t < 9; t++) report(t == 1 ? NORTH : BOTH, 1, t, NO_MODEL);
    report(BOTH, 2, 9, NO_MODEL);
    compare("the ninth youngest is lost in the south: no board shows it");
    convict(BOTH, 2);
    compare("engine 2, which sent the youngest, is convicted in both");

    begin();
    report(BOTH, 1, 0, NO_MODEL);
    report(NORTH, 1, 1, MODEL);
    compare("a record that is withheld is lost in the south");
    summary(1);
    compare("engine 1 says in both what its model is");

    begin();
    report(BOTH, 1, 0, NO_MODEL);
    convict(NORTH, 3);
    compare("engine 3, which sent nothing, is convicted in the north alone");
    report(BOTH, 3, 1, NO_MODEL);
    compare("engine 3 sends a fix to both");
    return 0;
}
