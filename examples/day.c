/* A day of a set. It asks whether a test admits the set, makes a day's slots one after the other, and prints of each flow how many packets
 * came through, the longest delay among them, and beside it the bounds and the deadline.
 *
 * Usage: day FILE [SLOTS]; a day has 8,640,000 slots of 10 ms. tests/examples/run builds it:
 *     cc -O2 day.c $(pkg-config --cflags --libs rembasuk) -o day && ./day nursery.set
 */
#include <stdio.h>
#include <stdlib.h>
#include <string.h>

#include <rembasuk.h>

#define DAY 8640000ul

typedef struct {
    unsigned long period, start;    /* from its line */
    rembasuk_bounds_answer bounds;
    unsigned long release, sent;    /* the packet under way: its release, and how often it was sent */
    unsigned long packets, longest; /* those that came through, and the longest delay of them */
} flow;

static flow flows[REMBASUK_MOST_FLOWS];
static unsigned count;

static int fail(const char *what, const char *why)
{
    fprintf(stderr, "day: %s: %s\n", what, why);
    return 1;
}

/* The flows of an accepted text: the reader has tested its form, so each line after the first has these numbers. */
static void take_flows(const char *text, size_t length)
{
    const char *line = strchr(text, '\n') + 1;
    for (; line < text + length; line = strchr(line, '\n') + 1, count++) {
        sscanf(line, "flow\t%lu\t%*u\t%lu", &flows[count].period, &flows[count].start);
        flows[count].bounds = rembasuk_bounds((const uint8_t *)text, length, count);
        flows[count].release = flows[count].start;
    }
}

/* One transmission: the packet it belongs to is the flow's latest, and with C of them it is through. */
static void take_send(unsigned long slot, flow *f)
{
    unsigned long release = slot - (slot - f->start) % f->period;
    if (release != f->release) {
        f->release = release;
        f->sent = 0;
    }
    f->sent++;
    if (f->sent == f->bounds.work) {
        unsigned long delay = slot - release + 1;
        f->packets++;
        if (delay > f->longest) {
            f->longest = delay;
        }
    }
}

/* The slot's lines: send, slot, flow, from, to, try, channel. */
static void take_lines(const char *lines)
{
    unsigned long slot;
    unsigned number;
    while (sscanf(lines, "send\t%lu\t%u", &slot, &number) == 2) {
        take_send(slot, &flows[number]);
        lines = strchr(lines, '\n') + 1;
    }
}

/* Prints the table; whether a delay was above its bound, which is proved never to be. */
static int print_flows(int basic)
{
    unsigned k;
    int late = 0;
    printf("flow\tpackets\tlongest\ttightened\tbasic\tdeadline\n");
    for (k = 0; k < count; k++) {
        const rembasuk_bounds_answer *b = &flows[k].bounds;
        printf("%u\t%lu\t%lu\t%lu\t%lu\t%lu\n", k, flows[k].packets, flows[k].longest, (unsigned long)b->tightened, (unsigned long)b->basic,
               (unsigned long)b->deadline);
        late = late || flows[k].longest > b->tightened || (basic && flows[k].longest > b->basic);
    }
    return late ? fail("a packet", "later than its bound") : 0;
}

int main(int words, char **word)
{
    static char text[REMBASUK_INPUT_LENGTH + 1], lines[REMBASUK_LINES_LENGTH + 1];
    uint8_t state[REMBASUK_STATE_LENGTH] = {0};
    unsigned long slots = words > 2 ? strtoul(word[2], NULL, 10) : DAY;
    size_t length;
    rembasuk_verdict_answer v;
    FILE *file = words > 1 ? fopen(word[1], "rb") : NULL;
    if (file == NULL) {
        return fail(words > 1 ? word[1] : "usage", words > 1 ? "cannot be opened" : "day FILE [SLOTS]");
    }
    length = fread(text, 1, sizeof text - 1, file);
    if (ferror(file) || !feof(file)) {
        return fail(word[1], "cannot be read, or is too long");
    }
    fclose(file);
    v = rembasuk_verdict((const uint8_t *)text, length);
    if (v.refusal != 0) {
        fprintf(stderr, "day: line %zu, field %zu: %s\n", v.line, v.field, rembasuk_refusal_text(v.refusal));
        return 1;
    }
    if (!v.tightened) {
        return fail(word[1], "not admitted");
    }
    take_flows(text, length);
    while (slots-- > 0) {
        rembasuk_slot_answer s = rembasuk_slot((const uint8_t *)text, length, state, sizeof state, (uint8_t *)lines, REMBASUK_LINES_LENGTH);
        if (s.refusal != 0) {
            return fail("no slot", rembasuk_refusal_text(s.refusal));
        }
        lines[s.length] = 0;
        take_lines(lines);
    }
    return print_flows((int)v.basic);
}
