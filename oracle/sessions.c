/* Prints what the program session prints for a session on standard input, by the C names: the whole session performed in one call on a
 * register of zeros, and then its board; of a refused one the number, and the line that its reason names. The reason goes to standard
 * error, as the program writes it. Ends with 1 where a byte changes that is to stay. */
#include <inttypes.h>
#include <stdio.h>
#include <stdlib.h>
#include <string.h>

#include "toastlagoon.h"

enum { PAINT = 7 };
static uint8_t input[TL_MAX_SESSION + 1], memory[TL_REGISTER_SIZE], out[TL_SESSION_SIZE], board[TL_BOARD_SIZE], reason[TL_REASON_SIZE];

static void must(int holds, const char *what) {
    if (holds) return;
    fprintf(stderr, "not so: %s\n", what);
    exit(1);
}

static int stays(const uint8_t *bytes, size_t from, size_t to, uint8_t as) {
    while (from < to && bytes[from] == as) from++;
    return from == to;
}

int main(void) {
    size_t size = fread(input, 1, sizeof input, stdin);
    memset(out, PAINT, sizeof out);
    memset(reason, PAINT, sizeof reason);
    uint32_t why = tl_session_reason(input, size, reason), length = tl_register_session(memory, sizeof memory, input, size, out, sizeof out);
    must(stays(reason, why, sizeof reason, PAINT), "bytes behind a reason stay");
    if (length % TL_ANSWER_LINE_SIZE != 0) {
        must(stays(out, 0, sizeof out, PAINT) && stays(memory, 0, sizeof memory, 0), "a refused session changes nothing");
        must(why != 0, "a refused session has a reason");
        printf("refused=%" PRIu32, length);
        if (length == TL_BAD_LINE) printf(" line=%lu", strtoul((const char *)reason + strlen("line "), NULL, 10));
        printf("\n");
        fwrite(reason, 1, why, stderr);
        return 0;
    }
    must(why == 0 && stays(out, length, sizeof out, PAINT), "a session that is performed has no reason, and bytes behind its answers stay");
    fwrite(out, 1, length, stdout);
    uint32_t drawn = tl_board(TL_MANAGER, memory, sizeof memory, board, sizeof board);
    if (drawn == 0) printf("transmissions=0\n");
    fwrite(board, 1, drawn, stdout);
    memory[0] = 1, memory[6] = TL_MAX_RECORDS + 1; /* too many records: no register */
    must(tl_register_session(memory, sizeof memory, input, size, out, sizeof out) == TL_MALFORMED_REGISTER, "bytes that are no register");
    memset(memory, 0, sizeof memory);
    must(tl_register_session(memory, sizeof memory, input, size, out, sizeof out - 1) == TL_OUTPUT_TOO_SMALL, "too little room");
    must(stays(memory, 0, sizeof memory, 0), "without room nothing changes");
    return 0;
}
