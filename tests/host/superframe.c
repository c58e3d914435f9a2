/* A C host of request 2: the superframe of a text, a table's lines written and read, the radio channel. Each lent buffer, of bytes or of 16-bit
 * numbers, stands right before, and again right after, a page that may not be touched; what a call may not change is compared. */
#include "area.h"

#define P1 "set\t3\nflow\t10\t8\t0\t1\t1\t2\t3\nflow\t20\t20\t0\t1\t4\t2\t5\n"
#define P2 "set\t3\nflow\t10\t3\t0\t1\t1\t2\t3\nflow\t20\t20\t0\t1\t4\t2\t5\n"
#define P3 "set\t15\nflow\t10\t1\t0\t1\t1\t2\nflow\t10\t1\t0\t1\t3\t4\nflow\t10\t1\t0\t1\t5\t6\nflow\t10\t1\t0\t1\t7\t8\nflow\t10\t1\t0\t1\t9\t10\n"
#define P7 "set\t3\nflow\t10\t10\t0\t1\t1\t2\nflow\t10\t10\t0\t1\t2\t3\nflow\t10\t10\t0\t1\t4\t5\n"
#define F1 "set\t7\nflow\t4\t4\t0\t1\t1\t2\nflow\t6\t6\t0\t2\t2\t3\n"
#define F2 "set\t7\nflow\t10\t8\t0\t1\t1\t2\t3\nflow\t20\t20\t0\t1\t4\t2\t5\n"

#define P1_LINES "0\t0\t0\t0\n1\t0\t1\t0\n2\t1\t0\t0\n3\t1\t1\t0\n10\t0\t0\t0\n11\t0\t1\t0\n"

static area text_area, table_area, lines_area;

/* A call of rembasuk_superframe with `room` numbers; checks that only the numbers answered change, and none on a refusal; and that the call
 * for the size alone answers the same, but for 10. */
static rembasuk_superframe_answer load(const char *text, uint16_t *out, size_t room, int at_end)
{
    size_t length = strlen(text);
    uint8_t *t = lend(text_area, length, at_end), *lent = lend(table_area, 2 * room, at_end);
    rembasuk_superframe_answer a, size;
    memcpy(t, text, length);
    a = rembasuk_superframe(t, length, (uint16_t *)(void *)lent, room);
    size = rembasuk_superframe_size(t, length);
    CHECK(memcmp(t, text, length) == 0 && untouched(text_area, t, length));
    CHECK(a.numbers <= room && (a.refusal == 0 || (a.numbers == 0 && a.hyper == 0)));
    CHECK(untouched(table_area, lent, 2 * a.numbers));
    if (a.refusal == 10) {
        CHECK(size.refusal == 0 && size.line == 0 && size.field == 0 && size.numbers > room && size.hyper > 0 && a.line == 0 && a.field == 0);
    } else {
        CHECK(size.refusal == a.refusal && size.line == a.line && size.field == a.field && size.hyper == a.hyper && size.numbers == a.numbers);
    }
    memcpy(out, lent, 2 * a.numbers);
    return a;
}

/* A call of rembasuk_table_write into `room` bytes. */
static rembasuk_lines_answer write_lines(const uint16_t *table, size_t numbers, char *out, size_t room, int at_end)
{
    uint8_t *t = lend(table_area, 2 * numbers, at_end), *l = lend(lines_area, room, at_end);
    rembasuk_lines_answer a;
    memcpy(t, table, 2 * numbers);
    a = rembasuk_table_write((const uint16_t *)(const void *)t, numbers, l, room);
    CHECK(memcmp(t, table, 2 * numbers) == 0 && untouched(table_area, t, 2 * numbers));
    CHECK(a.line == 0 && a.length <= room && (a.refusal == 0 || (a.refusal == 10 && a.length == 0)));
    CHECK(untouched(lines_area, l, a.length));
    memcpy(out, l, a.length);
    return a;
}

/* A call of rembasuk_table_read into `room` numbers. */
static rembasuk_rows_answer read_lines(const char *lines, size_t length, uint16_t *out, size_t room, int at_end)
{
    uint8_t *l = lend(lines_area, length, at_end), *t = lend(table_area, 2 * room, at_end);
    rembasuk_rows_answer a;
    memcpy(l, lines, length);
    a = rembasuk_table_read(l, length, (uint16_t *)(void *)t, room);
    CHECK(memcmp(l, lines, length) == 0 && untouched(lines_area, l, length));
    CHECK(a.numbers <= room && (a.refusal == 0 || a.numbers == 0));
    CHECK(untouched(table_area, t, 2 * a.numbers));
    memcpy(out, t, 2 * a.numbers);
    return a;
}

/* ---- the request's tables */

typedef struct {
    const char *text;
    uint32_t hyper;
    const char *lines;
} loaded;

static const loaded sets[] = {
    {P1, 20, P1_LINES},
    {P2, 20, P1_LINES},
    {P7, 10, "0\t0\t0\t0\n0\t2\t0\t1\n1\t1\t0\t0\n"},
    {F1, 12, "0\t0\t0\t0\n1\t1\t0\t0\n2\t1\t1\t0\n4\t0\t0\t0\n6\t1\t0\t0\n7\t1\t1\t0\n8\t0\t0\t0\n"},
    {F2, 20, P1_LINES},
    {"set\t1\n", 1, ""},
};

/* The set's table in rooms that are exact, longer by up to three, one short, and none; then as lines, and read again. */
static void run_set(const loaded *s, int at_end)
{
    static uint16_t table[256], again[256];
    static char lines[1024];
    size_t length = strlen(s->lines), numbers = rembasuk_superframe_size((const uint8_t *)s->text, strlen(s->text)).numbers, more;
    rembasuk_superframe_answer a;
    rembasuk_lines_answer w;
    rembasuk_rows_answer r;
    CHECK(numbers % REMBASUK_ROW_LENGTH == 0 && numbers <= 252);
    for (more = 0; more < 4; more++) {
        a = load(s->text, table, numbers + more, at_end);
        CHECK(a.refusal == 0 && a.line == 0 && a.field == 0 && a.hyper == s->hyper && a.numbers == numbers);
        /* up to three numbers left over don't count */
        memset(table + numbers, 0, 2 * more);
        w = write_lines(table, numbers + more, lines, length + more, at_end);
        CHECK(w.refusal == 0 && w.length == length && memcmp(lines, s->lines, length) == 0);
        r = read_lines(s->lines, length, again, numbers + more, at_end);
        CHECK(r.refusal == 0 && r.line == 0 && r.numbers == numbers && memcmp(again, table, 2 * numbers) == 0);
    }
    if (numbers == 0) {
        return;
    }
    CHECK(load(s->text, again, numbers - 1, at_end).refusal == 10 && load(s->text, again, 0, at_end).refusal == 10);
    CHECK(write_lines(table, numbers, lines, length - 1, at_end).refusal == 10 && write_lines(table, numbers, lines, 0, at_end).refusal == 10);
    r = read_lines(s->lines, length, again, numbers - 1, at_end);
    CHECK(r.refusal == 10 && r.line == 0);
    CHECK(read_lines(s->lines, length, again, 0, at_end).refusal == 10);
}

/* Three hyper-periods: what each slot sends is what the table has at slot mod hyper-period, with the channel of the true slot. */
static void repeats(const char *text, uint32_t map, int flows_have_one_try)
{
    static uint16_t table[256];
    uint8_t state[REMBASUK_STATE_LENGTH] = {0}, lines[REMBASUK_LINES_LENGTH + 1];
    rembasuk_superframe_answer a = rembasuk_superframe((const uint8_t *)text, strlen(text), table, 256);
    uint32_t t;
    CHECK(a.refusal == 0);
    for (t = 0; t < 3 * a.hyper; t++) {
        rembasuk_slot_answer s = rembasuk_slot((const uint8_t *)text, strlen(text), state, sizeof state, lines, REMBASUK_LINES_LENGTH);
        const char *at = (const char *)lines;
        size_t i;
        CHECK(s.refusal == 0);
        lines[s.length] = 0;
        for (i = 0; i < a.numbers; i += REMBASUK_ROW_LENGTH) {
            unsigned long slot, flow, from, to, attempt, channel;
            int taken = 0;
            if (table[i] != t % a.hyper) {
                continue;
            }
            CHECK(sscanf(at, "send\t%lu\t%lu\t%lu\t%lu\t%lu\t%lu\n%n", &slot, &flow, &from, &to, &attempt, &channel, &taken) == 6);
            CHECK(slot == t && flow == table[i + 1] && channel == rembasuk_channel(map, t, table[i + 3]));
            CHECK(!flows_have_one_try || attempt == 0);
            at += taken;
        }
        CHECK(*at == 0);
    }
}

/* ---- refusals */

static void refused_set(const char *text, uint32_t number, size_t line, size_t field, int at_end)
{
    uint16_t table[64];
    size_t room;
    for (room = 0; room < 64; room += 9) {
        rembasuk_superframe_answer a = load(text, table, room, at_end);
        CHECK(a.refusal == number && a.line == line && a.field == field);
    }
}

static void refused_sets(int at_end)
{
    refused_set("", 1, 1, 0, at_end);
    refused_set("set\t0\n", 2, 1, 2, at_end);
    refused_set("set\t3\nflow\t10\t8\t0\t1\t1\t2\tx\n", 1, 2, 8, at_end);
    refused_set("set\t3\nflow\t10\t8\t0\t1\t1\t2\t2", 1, 2, 0, at_end);
    refused_set("set\t3\nflow\t10\t8\t0\t1\t1\t2\t2\n", 8, 2, 8, at_end);
    refused_set("set\t1\nflow\t10\t3\t5\t2\t1\t2\t3\n", 9, 2, 0, at_end);
    refused_set(P3, REMBASUK_NOT_ADMITTED, 0, 0, at_end);
    refused_set("set\t15\nflow\t65535\t1\t3\t1\t1\t2\nflow\t10\t1\t0\t1\t3\t4\nflow\t10\t1\t0\t1\t5\t6\nflow\t10\t1\t0\t1\t7\t8\nflow\t10\t1\t0\t1\t9\t10\n",
                REMBASUK_NOT_ADMITTED, 0, 0, at_end);
    refused_set("set\t3\nflow\t65535\t400\t5\t1\t1\t2\t3\nflow\t2\t2\t0\t1\t8\t9\n", REMBASUK_LATE_START, 0, 0, at_end);
    refused_set("set\t3\nflow\t10\t8\t0\t1\t1\t2\t3\nflow\t20\t20\t1\t1\t4\t2\t5\n", REMBASUK_LATE_START, 0, 0, at_end);
    refused_set("set\t3\nflow\t65535\t400\t0\t1\t1\t2\t3\nflow\t2\t2\t0\t1\t8\t9\n", REMBASUK_LONG_HYPER_PERIOD, 0, 0, at_end);
    refused_set("set\t3\nflow\t32769\t32769\t0\t1\t1\t2\nflow\t2\t2\t0\t1\t8\t9\n", REMBASUK_LONG_HYPER_PERIOD, 0, 0, at_end);
}

/* Lines that are refused with 1 at this line, whatever the room. */
static void refused_lines(const char *lines, size_t line, int at_end)
{
    uint16_t table[64];
    size_t room;
    for (room = 0; room < 64; room += 7) {
        rembasuk_rows_answer a = read_lines(lines, strlen(lines), table, room, at_end);
        CHECK(a.refusal == REMBASUK_BAD_FORM && a.line == line);
    }
}

static void refused_tables(int at_end)
{
    static const char *const bad[] = {
        "\n", "6\t1\t1\n", "6\t1\t1\t1\t1\n", "6\t1\t1\t1", "6\t1\t1\t\n", "6\t\t1\t1\n", "\t6\t1\t1\t1\n", "6\t1\t1\t1\t\n", "6\t1\t1\t65536\n",
        "06\t1\t1\t1\n", "6\t1\t00\t1\n", "6\t-1\t1\t1\n", "6 1 1 1\n", "6\t1\t1\t1\r\n", "row\t6\t1\t1\t1\n", "6\t1\t1\t18446744073709551617\n",
        "5\t1\t1\t5\n", "5\t9\t9\t4\n", "4\t9\t9\t9\n", "4\t1\t1\t0\n5\t1\t1\t6\n",
    };
    char lines[256];
    uint16_t table[8];
    size_t i;
    for (i = 0; i < sizeof bad / sizeof bad[0]; i++) {
        sprintf(lines, "5\t1\t1\t5\n%s", bad[i]);
        refused_lines(lines, 2, at_end);
    }
    refused_lines("\n", 1, at_end);
    refused_lines("0\t0\t0\t0\n1\t0\t0\t0\n1\t0\t0\t0\nx\n", 3, at_end);
    /* NUL is a bad byte, not the end */
    CHECK(read_lines("0\t0\t0\t0\n\0", 9, table, 8, at_end).line == 2);
    /* equal slots with rising offsets, and numbers that no superframe has, are good */
    CHECK(read_lines("5\t1\t1\t5\n5\t0\t0\t6\n", 16, table, 8, at_end).numbers == 8);
    CHECK(read_lines("65535\t65535\t65535\t65535\n", REMBASUK_ROW_LINE_LENGTH, table, 8, at_end).numbers == 4 && table[3] == 65535);
}

/* ---- channels */

static void channels(void)
{
    CHECK(rembasuk_channel(7, 0, 0) == 11 && rembasuk_channel(7, 20, 0) == 13 && rembasuk_channel(7, 40, 0) == 12 && rembasuk_channel(7, 60, 0) == 11);
    CHECK(rembasuk_channel(32785, 1, 0) == 15 && rembasuk_channel(32785, 1, 1) == 26 && rembasuk_channel(32785, 1, 2) == 11);
    CHECK(rembasuk_channel(1, 0xffffffffu, 0xffffffffu) == 11 && rembasuk_channel(32768, 9, 9) == 26);
    CHECK(rembasuk_channel(7, 0xffffffffu, 0xfffffffeu) == 13 && rembasuk_channel(65535, 0xffffffffu, 0xffffffffu) == 25);
    CHECK(rembasuk_channel(0, 0, 0) == 0 && rembasuk_channel(65536, 0, 0) == 0 && rembasuk_channel(65537, 0, 0) == 0);
    CHECK(rembasuk_channel(0xffffffffu, 0xffffffffu, 0xffffffffu) == 0);
}

/* ---- buffers of length 0 may be NULL */

static void empty_buffers(void)
{
    rembasuk_superframe_answer a = rembasuk_superframe((const uint8_t *)"set\t1\n", 6, NULL, 0);
    rembasuk_lines_answer w = rembasuk_table_write(NULL, 0, NULL, 0);
    rembasuk_rows_answer r = rembasuk_table_read(NULL, 0, NULL, 0);
    CHECK(a.refusal == 0 && a.hyper == 1 && a.numbers == 0);
    a = rembasuk_superframe(NULL, 0, NULL, 0);
    CHECK(a.refusal == 1 && a.line == 1 && a.field == 0 && a.hyper == 0 && rembasuk_superframe_size(NULL, 0).refusal == 1);
    CHECK(w.refusal == 0 && w.length == 0 && r.refusal == 0 && r.numbers == 0);
    CHECK(rembasuk_superframe((const uint8_t *)P1, strlen(P1), NULL, 0).refusal == 10);
    CHECK(rembasuk_table_read((const uint8_t *)P1_LINES, strlen(P1_LINES), NULL, 0).refusal == 10);
}

/* ---- the longest of the request, at the page's edge: 3,932,104 numbers, and its lines */

static void long_tables(int at_end)
{
    char text[1024], *at = text + sprintf(text, "set\t65535\n");
    const size_t numbers = 3932104;
    uint16_t *table = malloc(2 * numbers), *again = malloc(2 * numbers);
    char *lines = malloc(6 * numbers);
    rembasuk_superframe_answer a;
    rembasuk_lines_answer w;
    int k;
    if (table == NULL || again == NULL || lines == NULL) {
        exit(2);
    }
    for (k = 0; k < 15; k++) {
        at += sprintf(at, "flow\t1\t1\t0\t1\t%d\t%d\n", 2 * k, 2 * k + 1);
    }
    sprintf(at, "flow\t65535\t65535\t0\t1\t30\t31\n");
    a = load(text, table, numbers - 1, at_end);
    CHECK(a.refusal == 10);
    a = load(text, table, numbers, at_end);
    CHECK(a.refusal == 0 && a.hyper == 65535 && a.numbers == numbers && numbers <= REMBASUK_SUPERFRAME_LENGTH);
    CHECK(table[60] == 0 && table[61] == 15 && table[63] == 15 && table[64] == 1 && table[numbers - 4] == 65534 && table[numbers - 3] == 14);
    w = write_lines(table, numbers, lines, 6 * numbers, at_end);
    CHECK(w.refusal == 0);
    CHECK(write_lines(table, numbers, lines, w.length - 1, at_end).refusal == 10);
    CHECK(write_lines(table, numbers, lines, w.length, at_end).length == w.length);
    CHECK(read_lines(lines, w.length, again, numbers, at_end).numbers == numbers && memcmp(again, table, 2 * numbers) == 0);
    CHECK(read_lines(lines, w.length, again, numbers - 1, at_end).refusal == 10);
    /* a bad line at the very end is 1, with or without room */
    CHECK(read_lines(lines, w.length - 1, again, 0, at_end).line == numbers / REMBASUK_ROW_LENGTH);
    free(table);
    free(again);
    free(lines);
}

int main(void)
{
    int at_end;
    size_t i;
    text_area = area_new(1);
    table_area = area_new((2 * REMBASUK_SUPERFRAME_LENGTH + page() - 1) / page());
    lines_area = area_new((6 * (size_t)3932104 + page() - 1) / page());
    long_tables(0);
    long_tables(1);
    /* the rest with areas that are quickly filled */
    table_area = area_new(1);
    lines_area = area_new(1);
    for (at_end = 0; at_end < 2; at_end++) {
        for (i = 0; i < sizeof sets / sizeof sets[0]; i++) {
            run_set(&sets[i], at_end);
        }
        refused_sets(at_end);
        refused_tables(at_end);
    }
    repeats(P1, 3, 1);
    repeats(P2, 3, 1);
    repeats(P7, 3, 1);
    repeats(F1, 7, 0);
    repeats(F2, 7, 1);
    channels();
    empty_buffers();
    return said("superframe host");
}
