/* A C host of request 4: the verdict, a flow's bound and a slot by fixed priority, on good and bad input, short and overlong buffers, every refusal, and
 * the request's sets slot by slot from the fresh state. Each lent buffer stands right before, and again right after, a page that may not be touched,
 * and the bytes around it are compared. */
#define SLOT rembasuk_fixed_slot
#include "either.h"

/* ---- calls with every buffer at an edge */

static rembasuk_fixed_verdict_answer verdict_of(const char *text, size_t length, int at_end)
{
    uint8_t *t = lend(text_area, length, at_end);
    rembasuk_fixed_verdict_answer v;
    memcpy(t, text, length);
    v = rembasuk_fixed_verdict(t, length);
    CHECK(memcmp(t, text, length) == 0 && untouched(text_area, t, length));
    return v;
}

static rembasuk_fixed_bounds_answer bounds_of(const char *text, size_t length, uint32_t flow, int at_end)
{
    uint8_t *t = lend(text_area, length, at_end);
    rembasuk_fixed_bounds_answer b;
    memcpy(t, text, length);
    b = rembasuk_fixed_bounds(t, length, flow);
    CHECK(memcmp(t, text, length) == 0 && untouched(text_area, t, length));
    return b;
}

/* ---- the sets of the request */

#define X1 "set\t1\nflow\t10\t10\t0\t1\t1\t2\t3\nflow\t10\t2\t0\t1\t4\t5\n"
#define X2 "set\t1\nflow\t10\t2\t0\t1\t4\t5\nflow\t10\t10\t0\t1\t1\t2\t3\n"
#define X3 P3 "flow\t10\t9\t0\t1\t11\t12\n"
#define X4 "set\t7\nflow\t24\t2\t0\t2\t1\t2\nflow\t4\t4\t0\t2\t2\t3\nflow\t24\t4\t2\t1\t3\t4\n"
#define X5 "set\t1\nflow\t3\t2\t1\t1\t1\t2\nflow\t2\t2\t3\t1\t2\t3\n"

typedef struct {
    const char *text;
    uint32_t admitted, judged, flows;
    uint32_t bounds[6][3]; /* C, bound, deadline of each flow */
    const char *sends;     /* the `send` lines of slots 0 to 11 */
} point;

static const point points[] = {
    {P1, 1, 2, 2, {{2, 2, 8}, {2, 8, 20}},
     "send\t0\t0\t1\t2\t0\t11\nsend\t1\t0\t2\t3\t0\t12\nsend\t2\t1\t4\t2\t0\t11\nsend\t3\t1\t2\t5\t0\t12\nsend\t10\t0\t1\t2\t0\t11\n"
     "send\t11\t0\t2\t3\t0\t12\n"},
    {P5, 1, 2, 2, {{1, 1, 2}, {1, 2, 2}},
     "send\t0\t0\t1\t2\t0\t11\nsend\t1\t1\t3\t4\t0\t11\nsend\t10\t0\t1\t2\t0\t11\nsend\t11\t1\t3\t4\t0\t11\n"},
    {X1, 0, 2, 2, {{2, 2, 10}, {1, 3, 2}},
     "send\t0\t0\t1\t2\t0\t11\nsend\t1\t0\t2\t3\t0\t11\nsend\t10\t0\t1\t2\t0\t11\nsend\t11\t0\t2\t3\t0\t11\n"},
    {X2, 1, 2, 2, {{1, 1, 2}, {2, 3, 10}},
     "send\t0\t0\t4\t5\t0\t11\nsend\t1\t1\t1\t2\t0\t11\nsend\t2\t1\t2\t3\t0\t11\nsend\t10\t0\t4\t5\t0\t11\nsend\t11\t1\t1\t2\t0\t11\n"},
    {X3, 0, 5, 6, {{1, 1, 1}, {1, 1, 1}, {1, 1, 1}, {1, 1, 1}, {1, 2, 1}, {1, 0, 9}},
     "send\t0\t0\t1\t2\t0\t11\nsend\t0\t1\t3\t4\t0\t12\nsend\t0\t2\t5\t6\t0\t13\nsend\t0\t3\t7\t8\t0\t14\nsend\t1\t5\t11\t12\t0\t12\n"
     "send\t10\t0\t1\t2\t0\t13\nsend\t10\t1\t3\t4\t0\t14\nsend\t10\t2\t5\t6\t0\t11\nsend\t10\t3\t7\t8\t0\t12\nsend\t11\t5\t11\t12\t0\t14\n"},
    {X4, 0, 3, 3, {{2, 2, 2}, {2, 4, 4}, {1, 5, 4}},
     "send\t0\t0\t1\t2\t0\t11\nsend\t1\t0\t1\t2\t1\t12\nsend\t2\t1\t2\t3\t0\t13\nsend\t3\t1\t2\t3\t1\t11\nsend\t4\t1\t2\t3\t0\t12\n"
     "send\t5\t1\t2\t3\t1\t13\nsend\t8\t1\t2\t3\t0\t13\nsend\t9\t1\t2\t3\t1\t11\n"},
    {X5, 1, 2, 2, {{1, 1, 2}, {1, 2, 2}},
     "send\t1\t0\t1\t2\t0\t11\nsend\t3\t1\t2\t3\t0\t11\nsend\t4\t0\t1\t2\t0\t11\nsend\t5\t1\t2\t3\t0\t11\nsend\t7\t0\t1\t2\t0\t11\n"
     "send\t8\t1\t2\t3\t0\t11\nsend\t9\t1\t2\t3\t0\t11\nsend\t10\t0\t1\t2\t0\t11\nsend\t11\t1\t2\t3\t0\t11\n"},
    {"set\t1\n", 1, 0, 0, {{0}}, ""},
};

static void run_point(const point *p, int at_end)
{
    uint8_t state[REMBASUK_STATE_LENGTH] = {0};
    char all[4096] = "", out[4096];
    uint32_t k;
    int t;
    size_t length = strlen(p->text);
    rembasuk_fixed_verdict_answer v = verdict_of(p->text, length, at_end);
    rembasuk_fixed_bounds_answer b;
    CHECK(v.refusal == 0 && v.line == 0 && v.field == 0 && v.admitted == p->admitted && v.judged == p->judged);
    for (k = 0; k < p->flows; k++) {
        b = bounds_of(p->text, length, k, at_end);
        CHECK(b.refusal == 0 && b.line == 0 && b.field == 0 && b.judged == (k < p->judged));
        CHECK(b.work == p->bounds[k][0] && b.bound == p->bounds[k][1] && b.deadline == p->bounds[k][2]);
    }
    b = bounds_of(p->text, length, p->flows, at_end);
    CHECK(b.refusal == 13 && b.line == 0 && b.field == 0 && !b.work && !b.bound && !b.deadline && !b.judged);
    CHECK(bounds_of(p->text, length, 0xffffffffu, at_end).refusal == 13 && bounds_of(p->text, length, 65536, at_end).refusal == 13);
    for (t = 0; t < 12; t++) {
        rembasuk_slot_answer a = slot_of(p->text, length, state, sizeof state, out, 512, at_end);
        CHECK(a.refusal == 0 && a.line == 0 && a.field == 0);
        strcat(all, out);
        CHECK(state[0] == t + 1 && state[1] == 0 && state[2] == 0 && state[3] == 0);
    }
    CHECK(strcmp(all, p->sends) == 0);
}

/* In slot 0 of X1 the two machines part: by deadline flow 1 goes first. Both take the other's state at its face value. */
static void beside_the_other(void)
{
    uint8_t fixed[REMBASUK_STATE_LENGTH] = {0}, other[REMBASUK_STATE_LENGTH] = {0}, lines[64];
    const uint8_t *text = (const uint8_t *)X1;
    rembasuk_slot_answer a = rembasuk_fixed_slot(text, strlen(X1), fixed, sizeof fixed, lines, sizeof lines);
    rembasuk_slot_answer b = rembasuk_slot(text, strlen(X1), other, sizeof other, lines, sizeof lines);
    CHECK(a.refusal == 0 && b.refusal == 0 && fixed[4] == 1 && fixed[5] == 0 && other[4] == 0 && other[5] == 1);
    CHECK(rembasuk_verdict(text, strlen(X1)).tightened == 1 && rembasuk_fixed_verdict(text, strlen(X1)).admitted == 0);
    a = rembasuk_fixed_slot(text, strlen(X1), other, sizeof other, lines, sizeof lines);
    CHECK(a.refusal == 0 && other[0] == 2 && other[4] == 1 && other[5] == 1);
}

/* ---- refusals */

static void refused_text(const char *text, size_t length, uint32_t number, size_t line, size_t field, int at_end)
{
    uint8_t state[REMBASUK_STATE_LENGTH] = {0}, odd[3] = {1, 2, 3};
    rembasuk_fixed_verdict_answer v = verdict_of(text, length, at_end);
    rembasuk_fixed_bounds_answer b = bounds_of(text, length, 99, at_end);
    rembasuk_slot_answer s = slot_of(text, length, state, sizeof state, NULL, 64, at_end);
    CHECK(v.refusal == number && v.line == line && v.field == field && !v.admitted && !v.judged);
    CHECK(b.refusal == number && b.line == line && b.field == field && !b.work && !b.bound && !b.deadline && !b.judged);
    CHECK(s.refusal == number && s.line == line && s.field == field);
    /* the text is read before anything else is tested */
    s = slot_of(text, length, odd, sizeof odd, NULL, 0, at_end);
    CHECK(s.refusal == number && s.line == line && s.field == field);
}

/* ---- the longest text, and 64 flows of which all are judged */

static void most_flows(int at_end)
{
    static char text[REMBASUK_INPUT_LENGTH];
    size_t length = large_set(text, REMBASUK_MOST_FLOWS, REMBASUK_MOST_NODES, REMBASUK_MOST_TRIES);
    uint32_t k;
    rembasuk_fixed_verdict_answer v = verdict_of(text, length, at_end);
    CHECK(length == REMBASUK_TEXT_LENGTH && v.refusal == 0 && v.admitted == 1 && v.judged == REMBASUK_MOST_FLOWS);
    /* every link of those before it meets the route, and n of each is (65535 + bound - 1) / 65535 rounded up, 2 */
    for (k = 0; k < REMBASUK_MOST_FLOWS; k++) {
        rembasuk_fixed_bounds_answer b = bounds_of(text, length, k, at_end);
        CHECK(b.refusal == 0 && b.judged == 1 && b.work == 64 && b.deadline == 65535 && b.bound == 64 + 2 * 64 * k);
    }
}

static void empty_buffers(void)
{
    uint8_t state[REMBASUK_STATE_LENGTH] = {0};
    rembasuk_fixed_verdict_answer v = rembasuk_fixed_verdict(NULL, 0);
    rembasuk_fixed_bounds_answer b = rembasuk_fixed_bounds(NULL, 0, 0);
    rembasuk_slot_answer s = rembasuk_fixed_slot(NULL, 0, NULL, 0, NULL, 0);
    CHECK(v.refusal == 1 && v.line == 1 && v.field == 0 && v.admitted == 0);
    CHECK(b.refusal == 1 && b.line == 1 && b.field == 0 && s.refusal == 1 && s.line == 1 && s.field == 0);
    s = rembasuk_fixed_slot((const uint8_t *)"set\t1\n", 6, state, sizeof state, NULL, 0);
    CHECK(s.refusal == 0 && s.length == 0 && state[0] == 1);
    s = rembasuk_fixed_slot((const uint8_t *)"set\t1\n", 6, NULL, 0, NULL, 0);
    CHECK(s.refusal == 12);
}

int main(void)
{
    int at_end;
    size_t i;
    text_area = area_new(5);
    state_area = area_new(1);
    lines_area = area_new(1);
    for (at_end = 0; at_end < 2; at_end++) {
        for (i = 0; i < sizeof points / sizeof points[0]; i++) {
            run_point(&points[i], at_end);
        }
        refused_texts(refused_text, at_end);
        refused_ends(refused_text, at_end);
        refused_slots(at_end);
        longest_lines(1000000000u, at_end);
        longest_lines(3999999998u, at_end);
        most_flows(at_end);
    }
    beside_the_other();
    empty_buffers();
    return said("fixed host");
}
