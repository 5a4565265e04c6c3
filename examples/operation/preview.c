/* A duty manager looks at the board as it would be before convicting an engine. Two engines placed one transmission 60 m apart, and the
 * one that heard it by more receivers is refused. Each of them is previewed, and one that said nothing; then one is convicted, and the
 * board is the one that was previewed. */
#include "records.h"

static uint8_t memory[TL_REGISTER_SIZE], before[TL_REGISTER_SIZE];

/* A text that a call wrote, and its length. */
struct text {
    uint8_t bytes[TL_BOARD_SIZE];
    uint32_t length;
};

static struct text now, previewed;

static bool same(const struct text *a, const struct text *b) { return a->length == b->length && memcmp(a->bytes, b->bytes, a->length) == 0; }

static void draw(struct text *t) { t->length = tl_board(TL_MANAGER, memory, sizeof memory, t->bytes, sizeof t->bytes); }

static void preview(uint32_t engine, struct text *t) {
    t->length = tl_register_preview(TL_MANAGER, memory, sizeof memory, engine, t->bytes, sizeof t->bytes);
}

static void show(const char *what, const struct text *t) { printf("%s\n%.*s", what, (int)t->length, (const char *)t->bytes); }

static void report(uint32_t engine, uint64_t after, int32_t lat, int tags) {
    uint8_t r[TL_RECORD_SIZE];
    write_fix(r, 1, START + after, lat, tags, NULL, 0);
    must(tl_register_report(memory, sizeof memory, engine, r, sizeof r));
}

static void refused(const char *what, uint32_t answer) { printf("%s: answer %" PRIu32 " (%s)\n", what, answer, tl_answer_name(answer)); }

int main(void) {
    report(1, 0, 481370000, 1);
    report(2, 100, 481375400, 2);
    memcpy(before, memory, sizeof memory);
    draw(&now);
    show("now", &now);
    preview(1, &previewed);
    show("without engine 1", &previewed);
    preview(9, &previewed);
    printf("without engine 9: %s\n", same(&previewed, &now) ? "as it is now" : "another");
    preview(2, &previewed);
    show("without engine 2", &previewed);
    refused("engine 32, into 100 bytes", tl_register_preview(TL_MANAGER, memory, sizeof memory, TL_MAX_ENGINE + 1, now.bytes, 100));
    refused("engine 2, into 100 bytes", tl_register_preview(TL_MANAGER, memory, sizeof memory, 2, now.bytes, 100));
    printf("the register is %s\n", memcmp(before, memory, sizeof memory) == 0 ? "as it was" : "another");
    must(tl_register_conviction(TL_MANAGER, memory, sizeof memory, 2));
    draw(&now);
    printf("engine 2 is convicted: the board is %s\n", same(&previewed, &now) ? "the one that was previewed" : "another");
    preview(2, &previewed);
    printf("without engine 2, once more: %s\n", same(&previewed, &now) ? "as it is now" : "another");
    return 0;
}
