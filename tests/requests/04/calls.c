/* The program `fixed` once more, over what C calls: a set on standard input, its lines on standard output, or the refusal. With a flow's number in its
 * words, the refusal or the line of that flow alone; with four words, one slot: the state's length, slot and first count, and the room for its lines. */
#include <stdio.h>
#include <stdlib.h>
#include <string.h>

#include "rembasuk.h"

static uint8_t text[REMBASUK_INPUT_LENGTH + 1];
static size_t length;
static int bad;

static void must(int test, const char *what)
{
    if (!test) {
        bad = 1;
        printf("calls: %s\n", what);
    }
}

static int refused(uint32_t refusal, size_t line, size_t field)
{
    printf("refused\t%lu\t%lu\t%lu\n", (unsigned long)refusal, (unsigned long)line, (unsigned long)field);
    return bad;
}

/* The bound of one flow, as the program prints it. */
static int one_flow(uint32_t flow)
{
    rembasuk_fixed_bounds_answer b = rembasuk_fixed_bounds(text, length, flow);
    if (b.refusal != 0) {
        must(!b.work && !b.bound && !b.deadline && !b.judged, "a refused bound is not blank");
        return refused(b.refusal, b.line, b.field);
    }
    must(b.line == 0 && b.field == 0, "a bound names a line");
    printf("bound\t%lu\t%lu\t%lu\t%lu\t%lu\n", (unsigned long)flow, (unsigned long)b.work, (unsigned long)b.bound, (unsigned long)b.deadline,
           (unsigned long)b.judged);
    return bad;
}

/* One slot from a state of this length, at this slot, with this first count; on a refusal neither buffer changes. */
static int one_slot(size_t state_length, uint32_t slot, uint8_t count, size_t room)
{
    uint8_t state[256] = {0}, before[256], lines[4096], filled[4096];
    rembasuk_slot_answer s;
    int i;
    for (i = 0; i < 4; i++) {
        state[i] = (uint8_t)(slot >> (8 * i));
    }
    state[4] = count;
    memcpy(before, state, sizeof state);
    memset(lines, 0xA5, sizeof lines);
    memcpy(filled, lines, sizeof lines);
    s = rembasuk_fixed_slot(text, length, state, state_length, lines, room);
    must(memcmp(lines + s.length, filled, sizeof lines - s.length) == 0, "bytes behind the lines change");
    if (s.refusal != 0) {
        must(s.length == 0 && memcmp(state, before, sizeof state) == 0, "a refused slot changes something");
        return refused(s.refusal, s.line, s.field);
    }
    fwrite(lines, 1, s.length, stdout);
    return bad;
}

int main(int words, char **word)
{
    uint8_t state[REMBASUK_STATE_LENGTH] = {0}, lines[REMBASUK_LINES_LENGTH];
    rembasuk_fixed_verdict_answer v;
    uint32_t k = 0;
    int t;
    length = fread(text, 1, sizeof text, stdin);
    if (words == 2) {
        return one_flow((uint32_t)strtoul(word[1], NULL, 10));
    }
    if (words == 5) {
        return one_slot(strtoul(word[1], NULL, 10), (uint32_t)strtoul(word[2], NULL, 10), (uint8_t)strtoul(word[3], NULL, 10), strtoul(word[4], NULL, 10));
    }
    v = rembasuk_fixed_verdict(text, length);
    if (v.refusal != 0) {
        must(!v.admitted && !v.judged, "a refused verdict is not blank");
        return refused(v.refusal, v.line, v.field);
    }
    printf("fixed\t%lu\t%lu\n", (unsigned long)v.admitted, (unsigned long)v.judged);
    while (rembasuk_fixed_bounds(text, length, k).refusal == 0) {
        one_flow(k++);
    }
    must(rembasuk_fixed_bounds(text, length, k).refusal == REMBASUK_NO_SUCH_FLOW, "the flow behind the last is not 13");
    for (t = 0; t < 12; t++) {
        rembasuk_slot_answer s = rembasuk_fixed_slot(text, length, state, sizeof state, lines, sizeof lines);
        must(s.refusal == 0, "a slot is refused");
        fwrite(lines, 1, s.length, stdout);
    }
    return bad;
}
