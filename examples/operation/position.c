/* The position to show: the first ranked fix of the last transmission, on the board of the latest window, not later than the room's clock,
 * whose board is not empty. One engine reports every second; another has a clock that is a minute fast and reports another place. Without
 * the room's clock its report is shown, 16 km off. */
#include "records.h"

#define SPAN UINT64_C(4000000000)
#define FIRST (START / SPAN)
#define WINDOWS 32
#define SECOND UINT64_C(1000000000)

static uint8_t windows[WINDOWS][TL_REGISTER_SIZE];

static void report(uint32_t engine, int transmission, uint64_t time, int32_t lat) {
    uint8_t record[TL_RECORD_SIZE], *memory = windows[time / SPAN - FIRST];
    write_record(record, transmission, time, lat);
    must(tl_register_report(memory, TL_REGISTER_SIZE, engine, record, sizeof record));
}

/* The record to show of a window, or null where its board is empty: the fixes come transmission by transmission, each with the ranked first. */
static const uint8_t *shown(const uint8_t *memory) {
    uint8_t fixes[TL_FIXES_SIZE];
    uint32_t length = tl_register_fixes(memory, TL_REGISTER_SIZE, fixes, sizeof fixes);
    if (length == 0) return NULL;
    if (length % TL_SHOWN_SIZE != 0) must(length);
    const uint8_t *fix = fixes + length - TL_SHOWN_SIZE;
    while (fix > fixes && fix[TL_SHOWN_NUMBER_AT - TL_SHOWN_SIZE] == fix[TL_SHOWN_NUMBER_AT]) fix -= TL_SHOWN_SIZE;
    return held(memory, fix[TL_SHOWN_PLACE_AT]);
}

/* Not later than this time. */
static void show(const char *name, uint64_t time) {
    for (uint64_t window = time / SPAN - FIRST + 1; window-- > 0;) {
        const uint8_t *record = shown(windows[window]);
        if (record == NULL) continue;
        printf("%s: lat=%" PRId32 " time=%" PRIu64 "\n", name, (int32_t)get(record + TL_RECORD_LAT_AT, 4), get(record + TL_RECORD_TIME_AT, 8));
        return;
    }
    printf("%s: nothing\n", name);
}

int main(void) {
    for (int i = 0; i < 40; i++) report(1, i, START + (uint64_t)i * SECOND, 481370000 + 1800 * i);
    report(2, 1000, START + 99 * SECOND, 480000000);
    show("by the room's clock", START + 39 * SECOND);
    show("without the clock, the latest of all windows", START + (WINDOWS - 1) * SPAN);
    return 0;
}
