/* Three desks look at one register. Two engines placed one transmission 60 m apart, and the one that heard it by more receivers is
 * refused: the crew sees the position, the analyst also what was set aside, and only the manager convicts. */
#include "records.h"

static uint8_t memory[TL_REGISTER_SIZE], before[TL_REGISTER_SIZE], out[TL_BOARD_SIZE];

static void show(const char *who, uint32_t desk) {
    uint32_t length = tl_board(desk, memory, sizeof memory, out, sizeof out);
    printf("%s\n%.*s", who, (int)length, (const char *)out);
}

static void refused(const char *what, uint32_t answer) { printf("%s: answer %" PRIu32 " (%s)\n", what, answer, tl_answer_name(answer)); }

static void report(uint32_t engine, uint64_t after, int32_t lat, int tags) {
    uint8_t r[TL_RECORD_SIZE];
    write_fix(r, 1, START + after, lat, tags, NULL, 0);
    must(tl_register_report(memory, sizeof memory, engine, r, sizeof r));
}

int main(void) {
    report(1, 0, 481370000, 1);
    report(2, 100, 481375400, 2);
    memcpy(before, memory, sizeof memory);
    show("crew", TL_CREW);
    show("analyst", TL_ANALYST);
    refused("crew, a preview", tl_register_preview(TL_CREW, memory, sizeof memory, 2, out, sizeof out));
    refused("crew, a conviction of engine 32", tl_register_conviction(TL_CREW, memory, sizeof memory, TL_MAX_ENGINE + 1));
    refused("analyst, a conviction", tl_register_conviction(TL_ANALYST, memory, sizeof memory, 1));
    refused("desk 3, a conviction", tl_register_conviction(3, memory, sizeof memory, 1));
    refused("desk 258, a board of no register", tl_board(258, memory, 0, out, sizeof out));
    printf("the register is %s\n", memcmp(before, memory, sizeof memory) == 0 ? "as it was" : "another");
    must(tl_register_conviction(TL_MANAGER, memory, sizeof memory, 1));
    show("crew, once the manager has convicted engine 1", TL_CREW);
    return 0;
}
