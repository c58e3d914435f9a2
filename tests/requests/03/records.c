/* A record has no fields: whatever refuses it, every function over a record names its line and field 0. The functions are those that the
 * comparison has, declared here by hand. */
#include <stddef.h>
#include <stdint.h>
#include <stdio.h>
#include <string.h>

typedef struct {
    uint32_t refusal;
    size_t line, field;
} fault;

typedef struct {
    uint16_t period, deadline, start, tries, nodes, route[17];
} flow;

typedef struct {
    uint16_t map, count;
    flow flows[64];
} flow_set;

typedef struct {
    uint32_t slot;
    uint8_t sent[64];
} machine_state;

typedef struct {
    fault fault;
    flow_set set;
} reading;

typedef struct {
    fault fault;
    size_t length;
} written;

typedef struct {
    fault fault;
    uint32_t basic, tightened, rounds;
} verdict;

typedef struct {
    fault fault;
    uint32_t work, basic, tightened, deadline;
    int32_t margin;
} bounds;

typedef struct {
    fault fault;
    uint32_t admitted, judged;
} fixed_verdict;

typedef struct {
    fault fault;
    uint32_t work, bound, deadline, judged;
} fixed_bounds;

typedef struct {
    fault fault;
    uint32_t hyper;
    size_t numbers;
} superframe;

typedef struct {
    fault fault;
    machine_state next;
    uint16_t sends;
    struct {
        uint32_t slot;
        uint16_t flow, from, to, attempt, offset, channel;
    } sent[16];
    uint16_t deliveries;
    struct {
        uint16_t flow, delay;
    } delivered[16];
    uint16_t drops, dropped[64];
} stepped;

typedef struct {
    fault fault;
    machine_state last;
    uint64_t delivered, dropped;
} ran;

fault probe_record_fault(flow_set s);
reading probe_read(const uint8_t *text, size_t length);
written probe_write(flow_set s, uint8_t *out, size_t length);
verdict probe_verdict(flow_set s);
bounds probe_bounds(flow_set s, uint16_t k);
stepped probe_step(flow_set s, machine_state st);
ran probe_run(flow_set s, uint32_t budget);
fixed_verdict probe_fixed_verdict(flow_set s);
fixed_bounds probe_fixed_bounds(flow_set s, uint16_t k);
stepped probe_fixed_step(flow_set s, machine_state st);
ran probe_fixed_run(flow_set s, uint32_t budget);
superframe probe_superframe_size(flow_set s);
superframe probe_superframe(flow_set s, uint16_t *table, size_t room);

static int checks, failures;

static void is(const char *what, fault f, uint32_t refusal, size_t line)
{
    checks++;
    if (f.refusal != refusal || f.line != line || f.field != 0) {
        failures++;
        printf("records: %s: refused %lu %zu %zu, not %lu %zu 0\n", what, (unsigned long)f.refusal, f.line, f.field, (unsigned long)refusal, line);
    }
}

/* Every function over this record, of which the record check is `refusal` at `line`. */
static void refused(const char *what, flow_set s, uint32_t refusal, size_t line)
{
    machine_state fresh = {0, {0}};
    uint8_t out[64];
    uint16_t table[4];
    is(what, probe_record_fault(s), refusal, line);
    is(what, probe_write(s, out, sizeof out).fault, refusal, line);
    is(what, probe_verdict(s).fault, refusal, line);
    is(what, probe_bounds(s, 0).fault, refusal, line);
    is(what, probe_step(s, fresh).fault, refusal, line);
    is(what, probe_run(s, 3).fault, refusal, line);
    is(what, probe_fixed_verdict(s).fault, refusal, line);
    is(what, probe_fixed_bounds(s, 0).fault, refusal, line);
    is(what, probe_fixed_step(s, fresh).fault, refusal, line);
    is(what, probe_fixed_run(s, 3).fault, refusal, line);
    is(what, probe_superframe_size(s).fault, refusal, line);
    is(what, probe_superframe(s, table, 4).fault, refusal, line);
}

/* The record with these numbers of flow k, and this second node. */
static flow_set with(flow_set s, int k, uint16_t period, uint16_t deadline, uint16_t tries, uint16_t nodes, uint16_t second)
{
    s.flows[k].period = period;
    s.flows[k].deadline = deadline;
    s.flows[k].tries = tries;
    s.flows[k].nodes = nodes;
    s.flows[k].route[1] = second;
    return s;
}

int main(void)
{
    static const char text[] = "set\t3\nflow\t10\t8\t0\t1\t1\t2\t3\nflow\t10\t8\t0\t1\t1\t2\t3\n";
    reading r = probe_read((const uint8_t *)text, strlen(text));
    flow_set good = r.set, other = good;
    machine_state st = {4000000000u, {0}};
    int k;
    is("a good text", r.fault, 0, 0);
    other.map = 0;
    refused("map 0", other, 2, 1);
    other = good;
    other.count = 65;
    for (k = 0; k < 64; k++) {
        other.flows[k] = good.flows[0];
    }
    refused("65 flows", other, 3, 66);
    refused("period 0", with(good, 0, 0, 8, 1, 3, 2), 4, 2);
    refused("period 0 of flow 1", with(good, 1, 0, 8, 1, 3, 2), 4, 3);
    refused("deadline 0", with(good, 0, 10, 0, 1, 3, 2), 5, 2);
    refused("a deadline above the period", with(good, 1, 10, 11, 1, 3, 2), 5, 3);
    refused("tries 5", with(good, 0, 10, 8, 5, 3, 2), 6, 2);
    refused("one node", with(good, 0, 10, 8, 1, 1, 2), 7, 2);
    refused("18 nodes", with(good, 1, 10, 8, 1, 18, 2), 7, 3);
    refused("equal nodes", with(good, 0, 10, 8, 1, 3, 1), 8, 2);
    refused("equal nodes behind", with(good, 1, 10, 8, 1, 3, 3), 8, 3);
    refused("links times tries above the deadline", with(good, 0, 10, 1, 1, 3, 2), 9, 2);
    is("no room", probe_write(good, NULL, 0).fault, 10, 0);
    is("the last slot", probe_step(good, st).fault, 11, 0);
    is("the last slot by fixed priority", probe_fixed_step(good, st).fault, 11, 0);
    st.slot++;
    is("a slot above the last", probe_step(good, st).fault, 12, 0);
    is("a slot above the last by fixed priority", probe_fixed_step(good, st).fault, 12, 0);
    is("no such flow", probe_bounds(good, 2).fault, 13, 0);
    is("no such flow by fixed priority", probe_fixed_bounds(good, 2).fault, 13, 0);
    printf("records: %d checks, %d failed\n", checks, failures);
    return failures != 0;
}
