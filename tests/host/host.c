/* A C host of the planner: every exported function but those of request 2 (superframe.c) and 4 (fixed.c) on good and bad input, short and overlong buffers,
 * every refusal, and P1 to P8 and P11 of document 01 with two more routes that return, slot by slot from the fresh state. Each lent buffer
 * stands right before, and again right after, a page that may not be touched, and the bytes around it are compared. */
#define SLOT rembasuk_slot
#include "either.h"

static area table_area;

/* ---- calls with every buffer at an edge */

static rembasuk_verdict_answer verdict_of(const char *text, size_t length, int at_end)
{
    uint8_t *t = lend(text_area, length, at_end);
    rembasuk_verdict_answer v;
    memcpy(t, text, length);
    v = rembasuk_verdict(t, length);
    CHECK(memcmp(t, text, length) == 0 && untouched(text_area, t, length));
    return v;
}

static rembasuk_bounds_answer bounds_of(const char *text, size_t length, uint32_t flow, int at_end)
{
    uint8_t *t = lend(text_area, length, at_end);
    rembasuk_bounds_answer b;
    memcpy(t, text, length);
    b = rembasuk_bounds(t, length, flow);
    CHECK(memcmp(t, text, length) == 0 && untouched(text_area, t, length));
    return b;
}

/* All bounds into a table of `room` numbers; checks that only the numbers answered change, and none on a refusal. */
static rembasuk_table_answer table_of(const char *text, size_t length, uint32_t *out, size_t room, int at_end)
{
    uint8_t *t = lend(text_area, length, at_end);
    uint8_t *lent = lend(table_area, 4 * room, at_end);
    rembasuk_table_answer a;
    memcpy(t, text, length);
    a = rembasuk_all_bounds(t, length, (uint32_t *)(void *)lent, room);
    CHECK(memcmp(t, text, length) == 0 && untouched(text_area, t, length));
    CHECK(a.numbers <= room && (a.refusal == 0 || a.numbers == 0));
    CHECK(untouched(table_area, lent, 4 * a.numbers));
    memcpy(out, lent, 4 * a.numbers);
    return a;
}

/* ---- the sets of document 01 */

#define P2 "set\t3\nflow\t10\t3\t0\t1\t1\t2\t3\nflow\t20\t20\t0\t1\t4\t2\t5\n"
#define P6 P5 "flow\t10\t2\t0\t1\t5\t6\n"
#define P7 "set\t3\nflow\t10\t10\t0\t1\t1\t2\nflow\t10\t10\t0\t1\t2\t3\nflow\t10\t10\t0\t1\t4\t5\n"
#define P8 "set\t1\nflow\t10\t4\t0\t2\t1\t2\t3\n"
#define P11 "set\t1\nflow\t10\t4\t0\t2\t1\t2\t1\n"
/* loops beside another flow; in the second one the link 1-2 stands twice */
#define L1 "set\t3\nflow\t20\t20\t0\t1\t1\t2\t3\t2\t1\nflow\t20\t20\t0\t1\t4\t2\n"
#define L2 "set\t3\nflow\t10\t6\t0\t1\t1\t2\t1\t2\nflow\t10\t10\t0\t1\t2\t9\n"

typedef struct {
    const char *text;
    uint32_t basic, tightened;
    uint32_t bounds; /* the flows' bounds, where document 01 gives one for all; 0: not given so */
    const char *sends; /* the `send` lines of the first slots */
    int slots;
} point;

static const point points[] = {
    {P1, 1, 1, 0,
     "send\t0\t0\t1\t2\t0\t11\nsend\t1\t0\t2\t3\t0\t12\nsend\t2\t1\t4\t2\t0\t11\nsend\t3\t1\t2\t5\t0\t12\nsend\t10\t0\t1\t2\t0\t11\n"
     "send\t11\t0\t2\t3\t0\t12\n",
     12},
    {P2, 0, 1, 0, "send\t0\t0\t1\t2\t0\t11\nsend\t1\t0\t2\t3\t0\t12\n", 2},
    {P3, 0, 0, 2, "send\t0\t0\t1\t2\t0\t11\nsend\t0\t1\t3\t4\t0\t12\nsend\t0\t2\t5\t6\t0\t13\nsend\t0\t3\t7\t8\t0\t14\n", 10},
    {P4, 1, 1, 1, "send\t0\t0\t1\t2\t0\t11\nsend\t0\t1\t3\t4\t0\t12\nsend\t0\t2\t5\t6\t0\t13\nsend\t0\t3\t7\t8\t0\t14\n", 10},
    {P5, 1, 1, 2, "send\t0\t0\t1\t2\t0\t11\nsend\t1\t1\t3\t4\t0\t11\n", 10},
    {P6, 0, 0, 3, "send\t0\t0\t1\t2\t0\t11\nsend\t1\t1\t3\t4\t0\t11\n", 10},
    {P7, 1, 1, 2, "send\t0\t0\t1\t2\t0\t11\nsend\t0\t2\t4\t5\t0\t12\nsend\t1\t1\t2\t3\t0\t12\n", 10},
    {P8, 1, 1, 4, "send\t0\t0\t1\t2\t0\t11\nsend\t1\t0\t1\t2\t1\t11\nsend\t2\t0\t2\t3\t0\t11\nsend\t3\t0\t2\t3\t1\t11\n", 10},
    {P11, 1, 1, 4, "send\t0\t0\t1\t2\t0\t11\nsend\t1\t0\t1\t2\t1\t11\nsend\t2\t0\t2\t1\t0\t11\nsend\t3\t0\t2\t1\t1\t11\n", 10},
    {L1, 1, 1, 5,
     "send\t0\t0\t1\t2\t0\t11\nsend\t1\t0\t2\t3\t0\t12\nsend\t2\t0\t3\t2\t0\t11\nsend\t3\t0\t2\t1\t0\t12\nsend\t4\t1\t4\t2\t0\t11\n", 20},
    {L2, 1, 1, 0, "send\t0\t0\t1\t2\t0\t11\nsend\t1\t0\t2\t1\t0\t12\nsend\t2\t0\t1\t2\t0\t11\nsend\t3\t1\t2\t9\t0\t12\n", 10},
};

static void run_point(const point *p, int at_end)
{
    uint8_t state[REMBASUK_STATE_LENGTH] = {0};
    char all[4096] = "", out[4096];
    int t;
    size_t length = strlen(p->text);
    rembasuk_verdict_answer v = verdict_of(p->text, length, at_end);
    CHECK(v.refusal == 0 && v.line == 0 && v.field == 0 && v.basic == p->basic && v.tightened == p->tightened && v.rounds > 0);
    if (p->bounds != 0) {
        rembasuk_bounds_answer b = bounds_of(p->text, length, 0, at_end);
        CHECK(b.refusal == 0 && b.line == 0 && b.field == 0 && b.basic == p->bounds && b.tightened == p->bounds);
        CHECK(b.margin == (int32_t)b.deadline - (int32_t)b.tightened);
    }
    for (t = 0; t < p->slots; t++) {
        rembasuk_slot_answer a = slot_of(p->text, length, state, sizeof state, out, 512, at_end);
        CHECK(a.refusal == 0 && a.line == 0 && a.field == 0);
        strcat(all, out);
        CHECK(state[0] == t + 1 && state[1] == 0 && state[2] == 0 && state[3] == 0);
    }
    CHECK(strcmp(all, p->sends) == 0);
}

static void p1_bounds(int at_end)
{
    rembasuk_bounds_answer a = bounds_of(P1, strlen(P1), 0, at_end), b = bounds_of(P1, strlen(P1), 1, at_end);
    CHECK(a.work == 2 && a.basic == 4 && a.tightened == 2 && a.deadline == 8 && a.margin == 6);
    CHECK(b.work == 2 && b.basic == 6 && b.tightened == 6 && b.deadline == 20 && b.margin == 14);
    CHECK(verdict_of(P1, strlen(P1), at_end).rounds == 3);
    CHECK(bounds_of(P3, strlen(P3), 4, at_end).margin == -1);
}

static void l2_bounds(int at_end)
{
    rembasuk_bounds_answer a = bounds_of(L2, strlen(L2), 0, at_end), b = bounds_of(L2, strlen(L2), 1, at_end);
    CHECK(a.work == 3 && a.basic == 4 && a.tightened == 3 && a.deadline == 6 && a.margin == 3);
    CHECK(b.work == 1 && b.basic == 4 && b.tightened == 4 && b.deadline == 10 && b.margin == 6);
    CHECK(verdict_of(L2, strlen(L2), at_end).rounds == 3);
    CHECK(verdict_of(L1, strlen(L1), at_end).rounds == 2 && verdict_of(P11, strlen(P11), at_end).rounds == 1);
}

/* ---- refusals */

static void refused_text(const char *text, size_t length, uint32_t number, size_t line, size_t field, int at_end)
{
    uint8_t state[REMBASUK_STATE_LENGTH] = {0}, odd[3] = {1, 2, 3};
    uint32_t table[4];
    rembasuk_verdict_answer v = verdict_of(text, length, at_end);
    rembasuk_bounds_answer b = bounds_of(text, length, 99, at_end);
    rembasuk_slot_answer s = slot_of(text, length, state, sizeof state, NULL, 64, at_end);
    rembasuk_table_answer a = table_of(text, length, table, 4, at_end);
    CHECK(v.refusal == number && v.line == line && v.field == field && !v.basic && !v.tightened && !v.rounds);
    CHECK(b.refusal == number && b.line == line && b.field == field);
    CHECK(!b.work && !b.basic && !b.tightened && !b.deadline && !b.margin);
    CHECK(s.refusal == number && s.line == line && s.field == field);
    CHECK(a.refusal == number && a.line == line && a.field == field && a.numbers == 0);
    /* the text is read before anything else is tested */
    s = slot_of(text, length, odd, sizeof odd, NULL, 0, at_end);
    CHECK(s.refusal == number && s.line == line && s.field == field);
}

static void no_such_flow(int at_end)
{
    rembasuk_bounds_answer b = bounds_of(P1, strlen(P1), 2, at_end);
    CHECK(b.refusal == 13 && b.line == 0 && b.field == 0);
    CHECK(bounds_of(P1, strlen(P1), 0xffffffffu, at_end).refusal == 13);
}

/* The set of the longest lines is an admitted one. */
static void busy_admitted(int at_end)
{
    static char text[4096];
    size_t length = busy_set(text);
    CHECK(verdict_of(text, length, at_end).basic == 1);
}

/* ---- the header's limits: each is good, one more is refused */

static void limits(int at_end)
{
    static char text[REMBASUK_INPUT_LENGTH];
    const int flows = REMBASUK_MOST_FLOWS, nodes = REMBASUK_MOST_NODES, tries = REMBASUK_MOST_TRIES;
    char out[64];
    uint8_t state[REMBASUK_STATE_LENGTH] = {0};
    size_t length = large_set(text, flows, nodes, tries);
    CHECK(length == REMBASUK_TEXT_LENGTH && verdict_of(text, length, at_end).refusal == REMBASUK_NOT_REFUSED);
    CHECK(bounds_of(text, length, REMBASUK_MOST_FLOWS - 1, at_end).work == REMBASUK_MOST_LINKS * REMBASUK_MOST_TRIES);
    length = large_set(text, flows + 1, 2, 1);
    refused_text(text, length, REMBASUK_TOO_MANY_FLOWS, REMBASUK_MOST_FLOWS + 2, 1, at_end);
    length = large_set(text, 1, nodes + 1, 1);
    refused_text(text, length, REMBASUK_BAD_ROUTE, 2, 0, at_end);
    length = large_set(text, 1, 2, tries + 1);
    refused_text(text, length, REMBASUK_BAD_TRIES, 2, 5, at_end);
    put_slot(state, REMBASUK_LAST_SLOT);
    CHECK(slot_refusal(state, sizeof state, 0, at_end) == REMBASUK_AT_LAST_SLOT);
    put_slot(state, REMBASUK_LAST_SLOT + 1);
    CHECK(slot_refusal(state, sizeof state, 0, at_end) == REMBASUK_BAD_STATE);
    /* the lowest and the highest channel */
    put_slot(state, 0);
    length = (size_t)sprintf(text, "set\t1\nflow\t9\t9\t0\t1\t1\t2\n");
    CHECK(slot_of(text, length, state, sizeof state, out, 32, at_end).length == 18 && atoi(out + 15) == REMBASUK_FIRST_CHANNEL);
    put_slot(state, 0);
    length = (size_t)sprintf(text, "set\t32768\nflow\t9\t9\t0\t1\t1\t2\n");
    CHECK(slot_of(text, length, state, sizeof state, out, 32, at_end).length == 18);
    CHECK(atoi(out + 15) == REMBASUK_FIRST_CHANNEL + REMBASUK_MOST_CHANNELS - 1);
}

/* ---- the bounds of all flows */

/* The table has what rembasuk_bounds says of each flow. */
static void same_bounds(const char *text, uint32_t flows, int at_end)
{
    uint32_t table[260], k;
    rembasuk_table_answer a = table_of(text, strlen(text), table, 4 * flows + 3, at_end);
    CHECK(a.refusal == 0 && a.line == 0 && a.field == 0 && a.numbers == 4 * flows);
    for (k = 0; k < flows; k++) {
        rembasuk_bounds_answer b = bounds_of(text, strlen(text), k, at_end);
        CHECK(b.refusal == 0 && table[4 * k] == b.work && table[4 * k + 1] == b.basic);
        CHECK(table[4 * k + 2] == b.tightened && table[4 * k + 3] == b.deadline);
    }
}

static void all_bounds(int at_end)
{
    static const uint32_t p1[8] = {2, 4, 2, 8, 2, 6, 6, 20};
    static char many[8192];
    uint32_t table[8];
    rembasuk_table_answer a = table_of(P1, strlen(P1), table, 8, at_end);
    size_t i;
    CHECK(a.refusal == 0 && a.line == 0 && a.field == 0 && a.numbers == 8 && memcmp(table, p1, sizeof p1) == 0);
    /* one short, none, and a refused text before too short a table */
    a = table_of(P1, strlen(P1), table, 7, at_end);
    CHECK(a.refusal == 10 && a.line == 0 && a.field == 0);
    a = table_of(P1, strlen(P1), table, 0, at_end);
    CHECK(a.refusal == 10 && a.line == 0 && a.field == 0);
    a = table_of(P9, strlen(P9), table, 8, at_end);
    CHECK(a.refusal == 9 && a.line == 2 && a.field == 0);
    a = table_of(P9, strlen(P9), table, 0, at_end);
    CHECK(a.refusal == 9 && a.line == 2 && a.field == 0);
    /* no flows need no room */
    a = table_of("set\t1\n", 6, table, 0, at_end);
    CHECK(a.refusal == 0 && a.line == 0 && a.numbers == 0);
    a = table_of("set\t1\n", 6, table, 8, at_end);
    CHECK(a.refusal == 0 && a.line == 0 && a.numbers == 0);
    for (i = 0; i < sizeof points / sizeof points[0]; i++) {
        uint32_t flows = 0;
        const char *p = points[i].text;
        while ((p = strstr(p, "flow")) != NULL) {
            flows++;
            p++;
        }
        same_bounds(points[i].text, flows, at_end);
    }
    strcpy(many, "set\t7\n");
    for (i = 0; i < 64; i++) {
        sprintf(many + strlen(many), "flow\t%d\t%d\t%d\t%d\t%d\t%d\t%d\n", (int)(300 + 7 * i), (int)(200 + 5 * i), (int)i, (int)(1 + i % 4),
                (int)(1 + i), (int)(3 + i), (int)(100 + i));
    }
    same_bounds(many, 64, at_end);
}

static void empty_buffers(void)
{
    uint8_t state[REMBASUK_STATE_LENGTH] = {0};
    rembasuk_verdict_answer v = rembasuk_verdict(NULL, 0);
    rembasuk_slot_answer s;
    rembasuk_table_answer a;
    CHECK(v.refusal == 1 && v.line == 1 && v.field == 0);
    s = rembasuk_slot((const uint8_t *)"set\t1\n", 6, state, sizeof state, NULL, 0);
    CHECK(s.refusal == 0 && s.length == 0 && state[0] == 1);
    s = rembasuk_slot((const uint8_t *)"set\t1\n", 6, NULL, 0, NULL, 0);
    CHECK(s.refusal == 12);
    v = rembasuk_verdict((const uint8_t *)"set\t1\n", 6);
    CHECK(v.refusal == 0 && v.basic == 1 && v.tightened == 1 && v.rounds == 1);
    a = rembasuk_all_bounds((const uint8_t *)"set\t1\n", 6, NULL, 0);
    CHECK(a.refusal == 0 && a.numbers == 0);
}

int main(void)
{
    int at_end;
    size_t i;
    text_area = area_new(5);
    state_area = area_new(1);
    lines_area = area_new(1);
    table_area = area_new(1);
    for (at_end = 0; at_end < 2; at_end++) {
        for (i = 0; i < sizeof points / sizeof points[0]; i++) {
            run_point(&points[i], at_end);
        }
        p1_bounds(at_end);
        l2_bounds(at_end);
        refused_texts(refused_text, at_end);
        refused_ends(refused_text, at_end);
        refused_slots(at_end);
        no_such_flow(at_end);
        limits(at_end);
        busy_admitted(at_end);
        longest_lines(1000000000u, at_end);
        longest_lines(3999999998u, at_end);
        all_bounds(at_end);
    }
    empty_buffers();
    return said("host");
}
