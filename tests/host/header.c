/* The header in every C from C99 and every C++ from C++98: tests/host/run compiles this file as each, with all warnings, and runs it. */
#include "rembasuk.h"
#include "rembasuk.h" /* twice is once */

#include <stdio.h>
#include <string.h>

#if REMBASUK_VERSION_NUMBER != REMBASUK_VERSION_MAJOR * 10000 + REMBASUK_VERSION_MINOR * 100 + REMBASUK_VERSION_PATCH
#error "the version's number"
#endif
#if REMBASUK_LAST_SLOT != 4000000000u || REMBASUK_MOST_NODES != REMBASUK_MOST_LINKS + 1 || REMBASUK_STATE_LENGTH != 4 + REMBASUK_MOST_FLOWS
#error "the limits"
#endif
#if REMBASUK_SUPERFRAME_LENGTH != REMBASUK_ROW_LENGTH * REMBASUK_MOST_CHANNELS * (REMBASUK_MOST_HYPER_PERIOD - 1) || REMBASUK_ROW_LINE_LENGTH != 24
#error "the table's lengths"
#endif
#if REMBASUK_LINES_LENGTH != 36 * REMBASUK_MOST_CHANNELS || REMBASUK_TEXT_LENGTH > REMBASUK_INPUT_LENGTH
#error "the lengths"
#endif

/* Whether the verdict's refusal is another than this one at line 2 and this field. */
static int refused(const char *text, size_t length, uint32_t number, size_t field)
{
    rembasuk_verdict_answer v = rembasuk_verdict((const uint8_t *)text, length);
    return v.refusal != number || v.line != 2 || v.field != field;
}

int main(void)
{
    uint32_t i, j;
    char version[64];
    const rembasuk_refusal last = REMBASUK_LONG_HYPER_PERIOD;
    const char *set = "set\t1\nflow\t10\t2\t0\t1\t1\t2\n";
    rembasuk_verdict_answer v = rembasuk_verdict((const uint8_t *)set, strlen(set));
    rembasuk_bounds_answer b = rembasuk_bounds((const uint8_t *)set, strlen(set), 1);
    uint8_t state[REMBASUK_STATE_LENGTH], lines[REMBASUK_LINES_LENGTH];
    uint16_t table[REMBASUK_ROW_LENGTH];
    rembasuk_superframe_answer f = rembasuk_superframe((const uint8_t *)set, strlen(set), table, REMBASUK_ROW_LENGTH);
    rembasuk_fixed_verdict_answer fixed = rembasuk_fixed_verdict((const uint8_t *)set, strlen(set));
    rembasuk_fixed_bounds_answer judged = rembasuk_fixed_bounds((const uint8_t *)set, strlen(set), 0);
    rembasuk_lines_answer w;
    rembasuk_rows_answer r;
    rembasuk_slot_answer s;
    memset(state, 0, sizeof state);
    s = rembasuk_slot((const uint8_t *)set, strlen(set), state, sizeof state, lines, sizeof lines);
    if (v.refusal != REMBASUK_NOT_REFUSED || b.refusal != REMBASUK_NO_SUCH_FLOW || s.refusal != REMBASUK_NOT_REFUSED || s.length != 18) {
        puts("header: a call is answered otherwise");
        return 1;
    }
    memset(state, 0, sizeof state);
    s = rembasuk_fixed_slot((const uint8_t *)set, strlen(set), state, sizeof state, lines, sizeof lines);
    if (fixed.refusal != REMBASUK_NOT_REFUSED || fixed.admitted != 1 || fixed.judged != 1 || judged.refusal != REMBASUK_NOT_REFUSED ||
        judged.work != 1 || judged.bound != 1 || judged.deadline != 2 || judged.judged != 1 || s.refusal != REMBASUK_NOT_REFUSED || s.length != 18) {
        puts("header: fixed priority is answered otherwise");
        return 1;
    }
    if (f.refusal != REMBASUK_NOT_REFUSED || f.hyper != 10 || f.numbers != 4 || rembasuk_superframe_size((const uint8_t *)set, strlen(set)).numbers != 4) {
        puts("header: the superframe is answered otherwise");
        return 1;
    }
    w = rembasuk_table_write(table, f.numbers, lines, sizeof lines);
    r = rembasuk_table_read(lines, w.length, table, REMBASUK_ROW_LENGTH);
    if (w.length != 8 || r.refusal != REMBASUK_NOT_REFUSED || r.numbers != 4 || rembasuk_channel(1, 9, 0) != REMBASUK_FIRST_CHANNEL) {
        puts("header: a table is answered otherwise");
        return 1;
    }
    /* no LF, a node that is no number, and the node before it once more */
    if (refused(set, strlen(set) - 1, REMBASUK_BAD_FORM, 0) || refused("set\t1\nflow\t10\t2\t0\t1\t1\tx\n", 24, REMBASUK_BAD_FORM, 7) ||
        refused("set\t1\nflow\t10\t2\t0\t1\t1\t1\n", 24, REMBASUK_EQUAL_NEIGHBOURS, 7)) {
        puts("header: a field is answered otherwise");
        return 1;
    }
    sprintf(version, "%d.%d.%d", REMBASUK_VERSION_MAJOR, REMBASUK_VERSION_MINOR, REMBASUK_VERSION_PATCH);
    if (strcmp(version, REMBASUK_VERSION) != 0) {
        puts("header: the version's text");
        return 1;
    }
    /* each number has a text of its own, and every other number the same one */
    for (i = 0; i <= (uint32_t)last + 1; i++) {
        for (j = 0; j < i; j++) {
            if (strcmp(rembasuk_refusal_text(i), rembasuk_refusal_text(j)) == 0) {
                puts("header: two refusals with one text");
                return 1;
            }
        }
    }
    if (strcmp(rembasuk_refusal_text(REMBASUK_EQUAL_NEIGHBOURS), "a node equals the one just before it in the route") != 0) {
        puts("header: the text of refusal 8");
        return 1;
    }
    return strcmp(rembasuk_refusal_text(0xffffffffu), rembasuk_refusal_text((uint32_t)last + 1)) != 0;
}
