/* A fuzz target for the exported functions: any bytes are a state and a text. It checks what must hold of every answer, by deadline and by
 * fixed priority. docs/FUZZING.md says how to run it. */
#include <stdlib.h>
#include <string.h>

#include "rembasuk.h"

int LLVMFuzzerTestOneInput(const uint8_t *data, size_t size);

/* A slot of one of the two machines. */
typedef rembasuk_slot_answer (*slot_call)(const uint8_t *text, size_t text_length, uint8_t *state, size_t state_length, uint8_t *lines, size_t lines_length);

static void must(int test)
{
    if (!test) {
        abort();
    }
}

/* The field that the refusal of a text must name; of 1 and of 8 it is one that the line has. */
static int names_field(const uint8_t *text, size_t length, rembasuk_verdict_answer v)
{
    static const size_t fixed[] = {0, 0, 2, 1, 2, 3, 5, 0, 0, 0};
    size_t at = 0, line = 1, fields = 1;
    if (v.refusal != REMBASUK_BAD_FORM && v.refusal != REMBASUK_EQUAL_NEIGHBOURS) {
        return v.field == fixed[v.refusal];
    }
    for (; at < length && line <= v.line; at++) {
        line += text[at] == '\n';
        fields += line == v.line && text[at] == '\t';
    }
    return v.field <= fields && (v.refusal == REMBASUK_BAD_FORM || v.field > 6);
}

/* One slot from a copy of the state with this room: what is written has its length, and a refusal leaves all as it was. */
static void slot_holds(slot_call call, const uint8_t *text, size_t length, const uint8_t *before, size_t room, rembasuk_verdict_answer v)
{
    uint8_t state[REMBASUK_STATE_LENGTH], lines[1024], filled[1024];
    rembasuk_slot_answer s;
    memcpy(state, before, sizeof state);
    memset(lines, 0xA5, sizeof lines);
    memcpy(filled, lines, sizeof lines);
    s = call(text, length, state, sizeof state, lines, room);
    must(s.length <= room && memcmp(lines + s.length, filled, sizeof lines - s.length) == 0);
    if (s.refusal != 0) {
        must(s.length == 0 && memcmp(state, before, sizeof state) == 0);
    }
    must((v.refusal == 0 || s.refusal == v.refusal) && s.field == v.field);
}

/* The test for fixed priority: its refusals are the other tests'; the judged flows are the first ones, all but the last of them are within their
 * deadlines, the last one too exactly in an admitted set, and the others have bound 0. */
static void fixed_holds(const uint8_t *text, size_t length, uint32_t flow, rembasuk_verdict_answer v)
{
    rembasuk_fixed_verdict_answer f = rembasuk_fixed_verdict(text, length);
    rembasuk_fixed_bounds_answer b = rembasuk_fixed_bounds(text, length, flow);
    must(f.refusal == v.refusal && f.line == v.line && f.field == v.field && f.admitted <= 1 && f.judged <= REMBASUK_MOST_FLOWS);
    must(v.refusal == 0 || (f.admitted == 0 && f.judged == 0));
    must(v.refusal == 0 ? b.refusal == 0 || b.refusal == 13 : b.refusal == v.refusal && b.line == v.line);
    must(b.field == v.field && b.work <= b.deadline && b.judged == (b.refusal == 0 && flow < f.judged));
    must(b.judged ? b.bound >= b.work : b.bound == 0);
    must(b.bound <= b.deadline || (flow + 1 == f.judged && f.admitted == 0));
    if (f.judged > 0) {
        b = rembasuk_fixed_bounds(text, length, f.judged - 1);
        must(b.refusal == 0 && (b.bound <= b.deadline) == (f.admitted == 1));
    }
}

int LLVMFuzzerTestOneInput(const uint8_t *data, size_t size)
{
    uint8_t state[REMBASUK_STATE_LENGTH] = {0};
    size_t head = size < sizeof state ? size : sizeof state, text_length = size - head, room;
    const uint8_t *text = data + head;
    rembasuk_verdict_answer v;
    rembasuk_bounds_answer b;
    rembasuk_table_answer a;
    uint32_t table[256], as_before[256];
    memcpy(state, data, head);
    v = rembasuk_verdict(text, text_length);
    must(v.refusal <= 9 && v.basic <= 1 && v.tightened <= 1 && (v.refusal == 0) == (v.rounds > 0));
    must(!v.basic || v.tightened); /* the tightened bound is never above the basic one */
    must(names_field(text, text_length, v));
    b = rembasuk_bounds(text, text_length, head > 0 ? data[0] % 66u : 0);
    must(b.refusal <= 13 && b.tightened <= b.basic && b.work <= b.deadline && b.field == v.field);
    room = head > 1 ? (size_t)data[1] * 4 : 1024;
    slot_holds(rembasuk_slot, text, text_length, state, room, v);
    slot_holds(rembasuk_fixed_slot, text, text_length, state, room, v);
    fixed_holds(text, text_length, head > 0 ? data[0] % 66u : 0, v);
    memset(table, 0xA5, sizeof table);
    memcpy(as_before, table, sizeof table);
    room = head > 2 ? data[2] : 256;
    a = rembasuk_all_bounds(text, text_length, table, room);
    must(a.numbers <= room && memcmp(table + a.numbers, as_before + a.numbers, sizeof table - 4 * a.numbers) == 0);
    must(v.refusal == 0 ? a.refusal == 0 || a.refusal == 10 : a.refusal == v.refusal && a.line == v.line);
    must(a.field == v.field);
    return 0;
}
