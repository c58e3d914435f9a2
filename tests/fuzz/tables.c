/* A fuzz target for request 2: after a first byte, which says how much is lent, any bytes are a set's text, a table's lines and a table's numbers.
 * It checks what must hold of every answer. docs/FUZZING.md says how to run it. */
#include <stdlib.h>
#include <string.h>

#include "rembasuk.h"

int LLVMFuzzerTestOneInput(const uint8_t *data, size_t size);

#define FILL 0xA5A5

static uint16_t table[REMBASUK_SUPERFRAME_LENGTH + 4], again[REMBASUK_SUPERFRAME_LENGTH];
static uint8_t lines[REMBASUK_SUPERFRAME_LENGTH / REMBASUK_ROW_LENGTH * REMBASUK_ROW_LINE_LENGTH];

static void must(int test)
{
    if (!test) {
        abort();
    }
}

static void fill(size_t numbers)
{
    size_t i;
    for (i = 0; i < numbers; i++) {
        table[i] = FILL;
    }
}

static int filled(size_t from, size_t to)
{
    while (from < to && table[from] == FILL) {
        from++;
    }
    return from == to;
}

/* The rows rise strictly by slot, then offset. */
static int rises(const uint16_t *rows, size_t numbers)
{
    size_t i;
    for (i = REMBASUK_ROW_LENGTH; i < numbers; i += REMBASUK_ROW_LENGTH) {
        const uint16_t *q = rows + i - REMBASUK_ROW_LENGTH, *r = rows + i;
        if (!(q[0] < r[0] || (q[0] == r[0] && q[3] < r[3]))) {
            return 0;
        }
    }
    return 1;
}

/* What is written of a rising table is read as this table. */
static void through_lines(size_t numbers)
{
    rembasuk_lines_answer w = rembasuk_table_write(table, numbers, lines, sizeof lines);
    rembasuk_rows_answer r = rembasuk_table_read(lines, w.length, again, numbers);
    must(w.refusal == 0 && r.refusal == 0 && r.numbers == numbers && memcmp(table, again, 2 * numbers) == 0);
}

/* The bytes as a set's text. */
static void as_text(const uint8_t *text, size_t length, size_t less)
{
    rembasuk_superframe_answer size = rembasuk_superframe_size(text, length), a;
    rembasuk_verdict_answer v = rembasuk_verdict(text, length);
    size_t room = size.numbers > less ? size.numbers - less : 0;
    must(v.refusal == 0 ? size.refusal == 0 || (size.refusal >= 14 && size.refusal <= 16) : size.refusal == v.refusal && size.line == v.line);
    must(size.field == v.field);
    must((size.refusal == 14) == (v.refusal == 0 && !v.tightened)); /* the tightened test admits whatever the basic one admits */
    must(size.refusal == 0 ? size.hyper > 0 && size.hyper <= REMBASUK_MOST_HYPER_PERIOD : size.hyper == 0 && size.numbers == 0);
    must(size.numbers % REMBASUK_ROW_LENGTH == 0 && size.numbers <= REMBASUK_SUPERFRAME_LENGTH);
    fill(size.numbers + 4);
    a = rembasuk_superframe(text, length, table, room);
    must(a.refusal == (size.refusal == 0 && room < size.numbers ? 10 : size.refusal) && filled(a.numbers, size.numbers + 4));
    a = rembasuk_superframe(text, length, table, size.numbers + 3);
    must(a.refusal == size.refusal && a.line == size.line && a.field == size.field && a.hyper == size.hyper && a.numbers == size.numbers);
    must(filled(a.numbers, a.numbers + 4) && rises(table, a.numbers) && (a.numbers == 0 || table[a.numbers - 4] < a.hyper));
    through_lines(a.numbers);
}

/* The bytes as a table's lines. */
static void as_lines(const uint8_t *text, size_t length, size_t room)
{
    rembasuk_rows_answer whole, a;
    fill(length + room);
    a = rembasuk_table_read(text, length, table, room);
    must(a.refusal == 0 || a.refusal == 1 || a.refusal == 10);
    must(a.numbers <= room && (a.refusal == 1) == (a.line > 0) && filled(a.numbers, length + room));
    whole = rembasuk_table_read(text, length, table, length);
    must(whole.refusal != 10 && (whole.refusal == 1) == (a.refusal == 1) && whole.line == a.line); /* 1 before 10 */
    must((a.refusal == 10) == (whole.refusal == 0 && whole.numbers > room));
    if (whole.refusal == 0) {
        rembasuk_lines_answer w = rembasuk_table_write(table, whole.numbers, lines, length);
        must(rises(table, whole.numbers) && w.refusal == 0 && w.length == length && memcmp(lines, text, length) == 0);
    }
}

/* The bytes as a table's numbers, two for each. */
static void as_numbers(const uint8_t *bytes, size_t length, size_t less)
{
    size_t numbers = length / 2, rows = numbers / REMBASUK_ROW_LENGTH * REMBASUK_ROW_LENGTH, room;
    rembasuk_lines_answer w;
    rembasuk_rows_answer r;
    memcpy(table, bytes, 2 * numbers);
    w = rembasuk_table_write(table, numbers, lines, sizeof lines);
    must(w.refusal == 0 && w.line == 0 && w.length >= 2 * rows && w.length <= rows / REMBASUK_ROW_LENGTH * REMBASUK_ROW_LINE_LENGTH);
    r = rembasuk_table_read(lines, w.length, again, rows);
    must(rises(table, rows) ? r.refusal == 0 && r.numbers == rows && memcmp(table, again, 2 * rows) == 0 : r.refusal == 1 && r.line > 1);
    room = w.length > less ? w.length - less : 0;
    memset(lines, 0x5A, w.length);
    must(rembasuk_table_write(table, numbers, lines, room).refusal == (room < w.length ? 10u : 0u));
    must(room == w.length || w.length == 0 || (lines[0] == 0x5A && lines[w.length - 1] == 0x5A));
}

int LLVMFuzzerTestOneInput(const uint8_t *data, size_t size)
{
    size_t lent = size > 0 ? data[0] : 0;
    if (size > REMBASUK_INPUT_LENGTH) {
        return 0;
    }
    if (size > 0) {
        data++;
        size--;
    }
    as_text(data, size, lent % 6);
    as_lines(data, size, lent);
    as_numbers(data, size, lent % 3);
    must(rembasuk_channel((uint32_t)lent << 9 | (size > 0 ? data[0] : 0u), (uint32_t)size, (uint32_t)lent) <= 26);
    return 0;
}
