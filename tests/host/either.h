/* What the hosts of both machines share: a slot over buffers at the edge of a forbidden page, every refusal of a text and of a slot, and the longest
 * lines. Whoever includes it says which call makes a slot: SLOT. */
#include "area.h"

#include "busy.h"

static area text_area, state_area, lines_area;

/* ---- the sets of document 01 that both have */

#define P1 "set\t3\nflow\t10\t8\t0\t1\t1\t2\t3\nflow\t20\t20\t0\t1\t4\t2\t5\n"
#define P4 "set\t15\nflow\t10\t1\t0\t1\t1\t2\nflow\t10\t1\t0\t1\t3\t4\nflow\t10\t1\t0\t1\t5\t6\nflow\t10\t1\t0\t1\t7\t8\n"
#define P3 P4 "flow\t10\t1\t0\t1\t9\t10\n"
#define P5 "set\t1\nflow\t10\t2\t0\t1\t1\t2\nflow\t10\t2\t0\t1\t3\t4\n"
#define P9 "set\t1\nflow\t10\t3\t0\t2\t1\t2\t3\n"
#define P10 "set\t0\n"

/* One slot over copies of `state` and a buffer of `room` bytes; checks that a refusal changes nothing and success nothing but its bytes. */
static rembasuk_slot_answer slot_of(const char *text, size_t length, uint8_t *state, size_t state_length, char *out, size_t room, int at_end)
{
    uint8_t *t = lend(text_area, length, at_end);
    uint8_t *s = lend(state_area, state_length, at_end);
    uint8_t *l = lend(lines_area, room, at_end);
    rembasuk_slot_answer a;
    size_t i;
    memcpy(t, text, length);
    memcpy(s, state, state_length);
    a = SLOT(t, length, s, state_length, l, room);
    CHECK(memcmp(t, text, length) == 0 && untouched(text_area, t, length));
    CHECK(untouched(state_area, s, state_length) && untouched(lines_area, l, room));
    if (a.refusal != 0) {
        CHECK(a.length == 0 && memcmp(s, state, state_length) == 0);
    }
    CHECK(a.length <= room);
    for (i = a.length; i < room; i++) {
        CHECK(l[i] == FILL);
    }
    memcpy(state, s, state_length);
    if (out != NULL && a.length <= room) {
        memcpy(out, l, a.length);
        out[a.length] = 0;
    }
    return a;
}

/* ---- refusals */

/* Checks that a text is refused so by each call: number, line, field. */
typedef void (*refused_call)(const char *text, size_t length, uint32_t number, size_t line, size_t field, int at_end);

/* Every refusal of a text, each handed to `refused_text`: number, line, field. */
static void refused_texts(refused_call refused_text, int at_end)
{
    static char many[16384];
    int i;
    refused_text("", 0, 1, 1, 0, at_end);
    refused_text("set\t3", 5, 1, 1, 0, at_end);
    refused_text("set\t03\n", 7, 1, 1, 2, at_end);
    refused_text("set\t3\n\n", 7, 1, 2, 1, at_end);
    refused_text("set\t3\n\0\n", 8, 1, 2, 1, at_end);
    refused_text(P10, strlen(P10), 2, 1, 2, at_end);
    refused_text("set\t3\nflow\t0\t0\t0\t0\n", 20, 4, 2, 2, at_end);
    refused_text("set\t3\nflow\t5\t6\t0\t0\n", 20, 5, 2, 3, at_end);
    refused_text("set\t3\nflow\t5\t5\t0\t5\n", 20, 6, 2, 5, at_end);
    refused_text("set\t3\nflow\t5\t5\t0\t1\n", 20, 7, 2, 0, at_end);
    refused_text("set\t1\nflow\t9\t9\t0\t1\t0\t0\n", 23, REMBASUK_EQUAL_NEIGHBOURS, 2, 7, at_end);
    refused_text("set\t1\nflow\t9\t9\t0\t1\t1\t1\t2\n", 25, REMBASUK_EQUAL_NEIGHBOURS, 2, 7, at_end);
    refused_text("set\t1\nflow\t9\t9\t0\t1\t1\t2\t2\n", 25, REMBASUK_EQUAL_NEIGHBOURS, 2, 8, at_end);
    refused_text(P9, strlen(P9), 9, 2, 0, at_end);
    strcpy(many, "set\t1\n");
    for (i = 0; i < 65; i++) {
        strcat(many, "flow\t100\t100\t0\t1\t1\t2\n");
    }
    refused_text(many, strlen(many), 3, 66, 1, at_end);
}

/* The bad field where the text ends at the page that may not be touched: in the word, in a number, and behind a tab. */
static void refused_ends(refused_call refused_text, int at_end)
{
    refused_text("se", 2, 1, 1, 1, at_end);
    refused_text("set", 3, 1, 1, 0, at_end);
    refused_text("set\t", 4, 1, 1, 2, at_end);
    refused_text("set\t3\nfl", 8, 1, 2, 1, at_end);
    refused_text("set\t3\nflow", 10, 1, 2, 0, at_end);
    refused_text("set\t3\nflow\t", 11, 1, 2, 2, at_end);
    refused_text("set\t3\nflow\t5\t5\t0\t1\t1\t2", 22, 1, 2, 0, at_end);
    refused_text("set\t3\nflow\t5\t5\t0\t1\t1\tx", 22, 1, 2, 7, at_end);
    refused_text("set\t3\nflow\t5\t5\t0\t1\t1\t", 21, 1, 2, 7, at_end);
}

static void put_slot(uint8_t *state, uint32_t t)
{
    int i;
    memset(state, 0, REMBASUK_STATE_LENGTH);
    for (i = 0; i < 4; i++) {
        state[i] = (uint8_t)(t >> (8 * i));
    }
}

static uint32_t slot_refusal(uint8_t *state, size_t state_length, size_t room, int at_end)
{
    rembasuk_slot_answer a = slot_of(P1, strlen(P1), state, state_length, NULL, room, at_end);
    CHECK(a.line == 0 && a.field == 0);
    return a.refusal;
}

static void refused_slots(int at_end)
{
    uint8_t state[REMBASUK_STATE_LENGTH + 1] = {0};
    size_t need = strlen("send\t0\t0\t1\t2\t0\t11\n");
    CHECK(slot_refusal(state, REMBASUK_STATE_LENGTH - 1, 64, at_end) == 12);
    CHECK(slot_refusal(state, REMBASUK_STATE_LENGTH + 1, 64, at_end) == 12);
    CHECK(slot_refusal(state, 0, 0, at_end) == 12);
    CHECK(slot_refusal(state, REMBASUK_STATE_LENGTH, need - 1, at_end) == 10);
    CHECK(slot_refusal(state, REMBASUK_STATE_LENGTH, 0, at_end) == 10);
    CHECK(slot_refusal(state, REMBASUK_STATE_LENGTH, need, at_end) == 0 && state[0] == 1 && state[4] == 1);
    put_slot(state, 4000000001u);
    CHECK(slot_refusal(state, REMBASUK_STATE_LENGTH, 0, at_end) == 12);
    put_slot(state, 4000000000u);
    CHECK(slot_refusal(state, REMBASUK_STATE_LENGTH, 0, at_end) == 11);
    state[4] = 3; /* above C */
    CHECK(slot_refusal(state, REMBASUK_STATE_LENGTH, 0, at_end) == 12);
    put_slot(state, 5);
    state[6] = 1; /* beyond the last flow */
    CHECK(slot_refusal(state, REMBASUK_STATE_LENGTH, 64, at_end) == 12);
    put_slot(state, 3999999999u);
    CHECK(slot_refusal(state, REMBASUK_STATE_LENGTH, 512, at_end) == 0);
    CHECK(state[0] == 0x00 && state[1] == 0x28 && state[2] == 0x6b && state[3] == 0xee);
    put_slot(state, 9); /* an idle slot needs no room: both packets have had all */
    state[4] = 2;
    state[5] = 2;
    CHECK(slot_refusal(state, REMBASUK_STATE_LENGTH, 0, at_end) == 0 && state[0] == 10);
}

/* ---- the longest lines of a slot: 16 sends of 36 bytes */

static void longest_lines(uint32_t slot, int at_end)
{
    static char text[4096], out[REMBASUK_LINES_LENGTH + 1];
    size_t length = busy_set(text), i;
    int ends = 0;
    uint8_t state[REMBASUK_STATE_LENGTH], before[REMBASUK_STATE_LENGTH];
    rembasuk_slot_answer a;
    /* the first ten have had their packet, so that by either order the others have the channels */
    put_slot(state, slot);
    memset(state + 4, 1, 10);
    memcpy(before, state, sizeof state);
    /* `slot_of` checks that a refusal leaves every byte of both buffers as it was */
    a = slot_of(text, length, state, sizeof state, NULL, REMBASUK_LINES_LENGTH - 1, at_end);
    CHECK(a.refusal == 10 && a.line == 0 && a.field == 0 && memcmp(state, before, sizeof state) == 0);
    a = slot_of(text, length, state, sizeof state, out, REMBASUK_LINES_LENGTH, at_end);
    CHECK(a.refusal == 0 && a.length == REMBASUK_LINES_LENGTH);
    for (i = 0; i < a.length; i++) {
        ends += out[i] == '\n';
    }
    CHECK(ends == 16 && out[a.length - 1] == '\n' && memcmp(out, "send\t", 5) == 0);
    put_slot(before, slot + 1);
    CHECK(memcmp(state, before, 4) == 0);
}

/* ---- the longest text */

/* A set with these counts of flows, of nodes of five digits and of tries, every number as long as it can be. */
static size_t large_set(char *text, int flows, int nodes, int tries)
{
    int k, i;
    char *at = text + sprintf(text, "set\t65535\n");
    for (k = 0; k < flows; k++) {
        at += sprintf(at, "flow\t65535\t65535\t65535\t%d", tries);
        for (i = 0; i < nodes; i++) {
            at += sprintf(at, "\t%d", 10000 + i);
        }
        at += sprintf(at, "\n");
    }
    return (size_t)(at - text);
}
