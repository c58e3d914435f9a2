/* What C is answered of a set on standard input, by each of the nine calls over a text: the refusal with its line and field, which all must have in
 * common, and nothing but it. The flow, the state and the rooms lent are bad ones: the text is read before anything else is tested. */
#include <stdio.h>
#include <stdlib.h>
#include <string.h>

#include "rembasuk.h"

static uint32_t refusal;
static size_t line, field;
static int bad;

static void must(int test, const char *what)
{
    if (!test) {
        bad = 1;
        printf("calls: %s\n", what);
    }
}

/* The call's refusal is the verdict's. */
static void same(const char *call, uint32_t number, size_t its_line, size_t its_field)
{
    must(number == refusal && its_line == line && its_field == field, call);
}

/* All of standard input; a host's text has any length. */
static uint8_t *whole(size_t *length)
{
    size_t room = 1 << 16, taken;
    uint8_t *text = malloc(room);
    *length = 0;
    while (text != NULL && (taken = fread(text + *length, 1, room - *length, stdin)) > 0) {
        *length += taken;
        if (*length == room) {
            room *= 2;
            text = realloc(text, room);
        }
    }
    return text;
}

int main(void)
{
    size_t length;
    uint8_t *text = whole(&length), state[3] = {1, 2, 3}, lines[4] = {4, 5, 6, 7};
    uint32_t numbers[2] = {8, 9};
    uint16_t rows[2] = {10, 11};
    rembasuk_verdict_answer v;
    rembasuk_bounds_answer b;
    rembasuk_slot_answer s;
    rembasuk_table_answer t;
    rembasuk_superframe_answer f;
    rembasuk_fixed_verdict_answer fixed;
    rembasuk_fixed_bounds_answer flow;
    if (text == NULL) {
        return 2;
    }
    v = rembasuk_verdict(text, length);
    refusal = v.refusal;
    line = v.line;
    field = v.field;
    must(refusal != 0, "accepted");
    must(!v.basic && !v.tightened && !v.rounds, "a refused verdict is not blank");
    b = rembasuk_bounds(text, length, 99);
    same("rembasuk_bounds", b.refusal, b.line, b.field);
    must(!b.work && !b.basic && !b.tightened && !b.deadline && !b.margin, "refused bounds are not blank");
    s = rembasuk_slot(text, length, state, sizeof state, lines, sizeof lines);
    same("rembasuk_slot", s.refusal, s.line, s.field);
    must(s.length == 0 && state[0] == 1 && state[2] == 3 && lines[0] == 4 && lines[3] == 7, "a refused slot changes something");
    t = rembasuk_all_bounds(text, length, numbers, 2);
    same("rembasuk_all_bounds", t.refusal, t.line, t.field);
    must(t.numbers == 0 && numbers[0] == 8 && numbers[1] == 9, "refused bounds of all flows change something");
    f = rembasuk_superframe_size(text, length);
    same("rembasuk_superframe_size", f.refusal, f.line, f.field);
    must(f.hyper == 0 && f.numbers == 0, "a refused size is not blank");
    f = rembasuk_superframe(text, length, rows, 2);
    same("rembasuk_superframe", f.refusal, f.line, f.field);
    must(f.hyper == 0 && f.numbers == 0 && rows[0] == 10 && rows[1] == 11, "a refused superframe changes something");
    fixed = rembasuk_fixed_verdict(text, length);
    same("rembasuk_fixed_verdict", fixed.refusal, fixed.line, fixed.field);
    must(!fixed.admitted && !fixed.judged, "a refused verdict by fixed priority is not blank");
    flow = rembasuk_fixed_bounds(text, length, 99);
    same("rembasuk_fixed_bounds", flow.refusal, flow.line, flow.field);
    must(!flow.work && !flow.bound && !flow.deadline && !flow.judged, "a refused bound by fixed priority is not blank");
    s = rembasuk_fixed_slot(text, length, state, sizeof state, lines, sizeof lines);
    same("rembasuk_fixed_slot", s.refusal, s.line, s.field);
    must(s.length == 0 && state[0] == 1 && state[2] == 3 && lines[0] == 4 && lines[3] == 7, "a refused slot by fixed priority changes something");
    printf("refused\t%lu\t%zu\t%zu\n", (unsigned long)refusal, line, field);
    free(text);
    return bad;
}
