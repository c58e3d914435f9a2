/* Rembasuk: admission and slot schedule of wireless flows, earliest deadline first; and, for plants that run it, fixed priority.
 *
 * The functions of the library are proved to do what the definitions in crates/model/specs and crates/document/specs say, for every input:
 * no call can fail otherwise than by one of the refusals below, and every call ends. docs/FORMAT.md explains the texts, README.md what is
 * proved and what not.
 *
 * A SET of flows is handed over as text: lines ended by LF, fields parted by one tab.
 *     set   MAP                                    the channel map, bit i for IEEE 802.15.4 channel 11 + i
 *     flow  T  D  a  TRIES  NODE  NODE ..          period, deadline, start, tries, route of 2 to 17 nodes; at most 64 such lines
 * Numbers are decimal, 0 to 65535, without sign or leading zero. Flows are numbered from 0 in order of their lines, tries from 0.
 * Lines and the fields of a line are counted from 1: the word is field 1, MAP is 2; T, D, a and TRIES are 2 to 5, the nodes 6, 7 and so on.
 * Each call reads the whole text again and keeps nothing of it. Call rembasuk_verdict once, before the first slot.
 *
 * WHAT ADMISSION PROMISES. If a test admits the set, and the slots are made one after the other from the fresh state, each once, each
 * call with the same text and with the state that the call before left, then up to slot 4000000000 (463 days of 10 ms) no packet is
 * dropped; each is sent C = links x tries times within its bound by that test, and its bound is at most its deadline; in no slot is a node
 * an end of two transmissions or a channel used twice. A transmission is a reserved slot: that it is heard is not promised. A host that
 * leaves out a slot, makes one twice, changes the state or the set, or starts in the middle, is answered as the definitions say and has
 * not this promise.
 *
 * A STATE belongs to one set. A call checks no more than that its counts fit the set's flows (12), so the state of another set may pass;
 * whoever changes the set begins with the fresh state.
 *
 * THE LAST SLOT. The slot before 4000000000 is made like any other and leaves a state at slot 4000000000; from that state every call is
 * refused with 11. A host that runs for longer begins again with the fresh state, when it can do without the packets under way.
 *
 * THE SUPERFRAME is for devices that are loaded with one table and repeat it: every transmission of one hyper-period, the least common
 * multiple of the periods, of an admitted set whose starts are all 0. It is a table of 16-bit numbers, four a transmission,
 *     slot, flow, transmission number (from 0 in its packet), offset
 * strictly rising by slot, then offset. In slot t, for every t below 4000000000, the machine above sends exactly what the table has at
 * t mod hyper-period: transmission number i of a flow goes over link i / TRIES of its route, with try i mod TRIES, on the channel that
 * rembasuk_channel answers for the map, the TRUE slot t and the offset. All devices count slots from the same slot 0. The channel is not in the
 * table, since it follows the true slot: the number of channels need not divide the hyper-period.
 *
 * FIXED PRIORITY is for plants that schedule by flow number alone, lower first. rembasuk_fixed_slot makes the slots of that machine: it differs from
 * the one above only in whom a slot takes first. rembasuk_fixed_verdict and rembasuk_fixed_bounds are its test, and have for it the promise above: if
 * this test admits the set, and the slots are made by rembasuk_fixed_slot one after the other from the fresh state, each once, then no packet is
 * dropped and each is sent within its bound by this test. In a set that it does not admit every flow before the first one over its deadline still
 * keeps its bound and loses no packet. A verdict of the other tests promises nothing of these slots, nor this one of the slots above. The state has
 * the same 68 bytes; whoever changes from one machine to the other begins with the fresh state.
 *
 * MEMORY. The caller owns every buffer. A function reads and writes only the bytes lent, keeps no pointer, and allocates nothing.
 * A buffer of length 0 may be NULL. The areas lent to one call must not overlap.
 * The functions have no state of their own: they may be called from several threads on separate buffers.
 * The stack that a call may use is said by REMBASUK_VERDICT_STACK, REMBASUK_SLOT_STACK, REMBASUK_SUPERFRAME_STACK and
 * REMBASUK_TABLE_STACK; tests/host/stack.c measures it.
 */
#ifndef REMBASUK_H
#define REMBASUK_H

#include <stddef.h>
#include <stdint.h>

#ifdef __cplusplus
extern "C" {
#endif

/* The version. These three lines are its one source: the Makefile and the pkg-config file take it from here. */
#define REMBASUK_VERSION_MAJOR 0
#define REMBASUK_VERSION_MINOR 1
#define REMBASUK_VERSION_PATCH 0

/* The version as a text, "0.1.0", and as a number that grows, 100 for it. */
#define REMBASUK_QUOTED_(major, minor, patch) #major "." #minor "." #patch
#define REMBASUK_QUOTED(major, minor, patch) REMBASUK_QUOTED_(major, minor, patch)
#define REMBASUK_VERSION REMBASUK_QUOTED(REMBASUK_VERSION_MAJOR, REMBASUK_VERSION_MINOR, REMBASUK_VERSION_PATCH)
#define REMBASUK_VERSION_NUMBER (REMBASUK_VERSION_MAJOR * 10000 + REMBASUK_VERSION_MINOR * 100 + REMBASUK_VERSION_PATCH)

/* The limits of a set and of a run. */
#define REMBASUK_MOST_FLOWS 64
#define REMBASUK_MOST_NODES 17         /* of a route */
#define REMBASUK_MOST_LINKS 16         /* of a route */
#define REMBASUK_MOST_TRIES 4          /* of a link */
#define REMBASUK_MOST_CHANNELS 16      /* sends of one slot are as many at most */
#define REMBASUK_FIRST_CHANNEL 11      /* bit 0 of the map */
#define REMBASUK_LAST_SLOT 4000000000u /* no slot is made from here on */

/* The longest text that is accepted, and the longest input of the programs `plan`, `superframe` and `fixed`, in bytes. */
#define REMBASUK_TEXT_LENGTH 8138
#define REMBASUK_INPUT_LENGTH 16384

/* A state is this many bytes: the slot in four bytes, lowest first, then a count byte for each of 64 flows: how many transmissions its
 * latest packet has had. The fresh state is all zeros. */
#define REMBASUK_STATE_LENGTH 68

/* The `send` lines of one slot have at most this many bytes: 16 lines of 36. A buffer of this length is never refused as too short. */
#define REMBASUK_LINES_LENGTH 576

/* The table of all flows' bounds has at most this many 32-bit numbers: 64 flows of 4. */
#define REMBASUK_TABLE_LENGTH 256

/* A row of a superframe's table has this many 16-bit numbers; the longest hyper-period that is loaded, in slots; and the most numbers that a
 * table can have, 16 rows in each of 65535 slots. A host lends that many, or asks rembasuk_superframe_size. */
#define REMBASUK_ROW_LENGTH 4
#define REMBASUK_MOST_HYPER_PERIOD 65536
#define REMBASUK_SUPERFRAME_LENGTH 4194240

/* A line of a table has at most this many bytes: four numbers of five digits, three tabs and LF. */
#define REMBASUK_ROW_LINE_LENGTH 24

/* How many bytes of stack a call may use: the verdict, the bounds of one flow and of all, the verdict and the bounds of fixed priority; a slot of
 * either machine; the superframe and its size; a table written or read, and the channel. */
#define REMBASUK_VERDICT_STACK 65536
#define REMBASUK_SLOT_STACK 32768
#define REMBASUK_SUPERFRAME_STACK 65536
#define REMBASUK_TABLE_STACK 16384

/* The refusals by number, as the answers have them. 1 to 9 name the text's line; the others line 0.
 * An answer over a set's text also names the FIELD of that line, for whoever typed the set: below it is said of each. 0 names none: nothing is
 * refused, no one field is to blame, or no line is named. A line that is refused may be of any length, so a field is a size_t, as a line is.
 * Of a table's lines no field is named: their answers have none. */
typedef enum {
    REMBASUK_NOT_REFUSED = 0,
    REMBASUK_BAD_FORM = 1,          /* the line lacks its form: a wrong word or number, blanks for tabs, CR, no LF at the end, an empty text of a set;
                                       of a table also a line that does not rise above the one before. Field: the first bad one, which is not the
                                       word, no number, or one more after MAP; 0 where none is: numbers or the LF are missing, or the text is empty */
    REMBASUK_NO_CHANNEL = 2,        /* map 0; field 2 */
    REMBASUK_TOO_MANY_FLOWS = 3,    /* a 65th flow; field 1 */
    REMBASUK_BAD_PERIOD = 4,        /* period 0; field 2 */
    REMBASUK_BAD_DEADLINE = 5,      /* deadline 0 or above the period; field 3 */
    REMBASUK_BAD_TRIES = 6,         /* tries outside 1 to 4; field 5 */
    REMBASUK_BAD_ROUTE = 7,         /* fewer than 2 or more than 17 nodes; field 0 */
    REMBASUK_EQUAL_NEIGHBOURS = 8,  /* a node equals the one just before it in the route; field: the first such node, the later of the two */
    REMBASUK_TOO_MUCH_WORK = 9,     /* links x tries above the deadline; field 0 */
    REMBASUK_NO_ROOM = 10,          /* the lent buffer is shorter than what is to be written */
    REMBASUK_AT_LAST_SLOT = 11,     /* the state is at slot 4000000000 */
    REMBASUK_BAD_STATE = 12,        /* its slot is above the last, a count is above its flow's C or beyond the last flow, or it has not 68 bytes */
    REMBASUK_NO_SUCH_FLOW = 13,     /* no flow of that number */
    REMBASUK_NOT_ADMITTED = 14,     /* neither test admits the set */
    REMBASUK_LATE_START = 15,       /* a flow starts at another slot than 0 */
    REMBASUK_LONG_HYPER_PERIOD = 16 /* the hyper-period is above 65536 slots */
} rembasuk_refusal;

/* A refusal in English, for whoever typed the set; any number is answered. Plain C of this header, not of the library. */
static inline const char *rembasuk_refusal_text(uint32_t refusal)
{
    switch (refusal) {
    case REMBASUK_NOT_REFUSED: return "not refused";
    case REMBASUK_BAD_FORM: return "the line lacks its form, or a table's line its order";
    case REMBASUK_NO_CHANNEL: return "the channel map is 0";
    case REMBASUK_TOO_MANY_FLOWS: return "there are more than 64 flows";
    case REMBASUK_BAD_PERIOD: return "the period is 0";
    case REMBASUK_BAD_DEADLINE: return "the deadline is 0 or above the period";
    case REMBASUK_BAD_TRIES: return "the tries are not 1 to 4";
    case REMBASUK_BAD_ROUTE: return "the route has fewer than 2 or more than 17 nodes";
    case REMBASUK_EQUAL_NEIGHBOURS: return "a node equals the one just before it in the route";
    case REMBASUK_TOO_MUCH_WORK: return "links times tries are above the deadline";
    case REMBASUK_NO_ROOM: return "the lent buffer is too short";
    case REMBASUK_AT_LAST_SLOT: return "the state is at the last slot";
    case REMBASUK_BAD_STATE: return "the bytes are no state of this set";
    case REMBASUK_NO_SUCH_FLOW: return "the set has no flow of that number";
    case REMBASUK_NOT_ADMITTED: return "neither test admits the set";
    case REMBASUK_LATE_START: return "a flow starts at another slot than 0";
    case REMBASUK_LONG_HYPER_PERIOD: return "the hyper-period is above 65536 slots";
    default: return "unknown refusal";
    }
}

/* What the two delay tests say of a set. A refused verdict has zeros from `basic` on. */
typedef struct {
    uint32_t refusal;   /* 0, or 1 to 9 */
    size_t line;        /* the line that is refused, or 0 */
    size_t field;       /* its field that is bad, or 0 */
    uint32_t basic;     /* 1 if the basic test admits the set */
    uint32_t tightened; /* 1 if the tightened test admits it; it admits whatever the basic test admits */
    uint32_t rounds;    /* how many rounds the tightened test took */
} rembasuk_verdict_answer;

/* One flow's bounds, in slots. A refused answer has zeros from `work` on. */
typedef struct {
    uint32_t refusal;   /* 0, 1 to 9, or 13 */
    size_t line;        /* the line that is refused, or 0 */
    size_t field;       /* its field that is bad, or 0 */
    uint32_t work;      /* C, the transmissions of one packet: links x tries */
    uint32_t basic;     /* the basic delay bound */
    uint32_t tightened; /* the tightened delay bound */
    uint32_t deadline;  /* the flow's deadline */
    int32_t margin;     /* deadline less tightened bound: negative exactly for a flow over its deadline */
} rembasuk_bounds_answer;

/* What one slot wrote. */
typedef struct {
    uint32_t refusal;   /* 0, 1 to 9, 12, 11 or 10, in this order where several apply */
    size_t line;        /* the line that is refused, or 0 */
    size_t field;       /* its field that is bad, or 0 */
    size_t length;      /* how many bytes of the second buffer are the slot's `send` lines; 0 if refused */
} rembasuk_slot_answer;

/* Both verdicts of the set in `text`. Refusals: 1 to 9. */
rembasuk_verdict_answer rembasuk_verdict(const uint8_t *text, size_t text_length);

/* The bounds of flow number `flow`, counted from 0 in order of the lines. Refusals: 1 to 9, then 13. */
rembasuk_bounds_answer rembasuk_bounds(const uint8_t *text, size_t text_length, uint32_t flow);

/* One slot: what is sent in the state's slot, and the state after it.
 * On success the next state stands in the 68 bytes of `state`, the slot's lines
 *     send  SLOT  FLOW  FROM  TO  TRY  CHANNEL
 * stand at the start of `lines`, and the further bytes of `lines` stay as they were. An idle slot has no line and needs no room.
 * On any refusal neither buffer changes, so a host that overlooks one stands still. Refusals: 1 to 9, then 12, 11, 10. */
rembasuk_slot_answer rembasuk_slot(const uint8_t *text, size_t text_length, uint8_t *state, size_t state_length, uint8_t *lines,
                                   size_t lines_length);

/* What the bounds of all flows wrote. */
typedef struct {
    uint32_t refusal;   /* 0, 1 to 9, or 10 */
    size_t line;        /* the line that is refused, or 0 */
    size_t field;       /* its field that is bad, or 0 */
    size_t numbers;     /* how many 32-bit numbers of the table are the flows' bounds, four a flow; 0 if refused */
} rembasuk_table_answer;

/* The bounds of all flows at once: C, basic bound, tightened bound and deadline of flow 0, then of flow 1, and so on, at the start of
 * `table`, whose further numbers stay as they were. `room` counts 32-bit numbers, as `numbers` does: four for each flow are needed, REMBASUK_TABLE_LENGTH
 * are always enough. The tightened test's rounds are made once, where a call of rembasuk_bounds for each flow makes them again.
 * On any refusal the table does not change. Refusals: 1 to 9, then 10. */
rembasuk_table_answer rembasuk_all_bounds(const uint8_t *text, size_t text_length, uint32_t *table, size_t room);

/* What the test for fixed priority says of a set. A refused verdict has zeros from `admitted` on. */
typedef struct {
    uint32_t refusal;   /* 0, or 1 to 9 */
    size_t line;        /* the line that is refused, or 0 */
    size_t field;       /* its field that is bad, or 0 */
    uint32_t admitted;  /* 1 if the test admits the set; a set without flows is admitted */
    uint32_t judged;    /* how many flows were judged: all, or those up to the first one over its deadline, it among them */
} rembasuk_fixed_verdict_answer;

/* One flow's bound by fixed priority, in slots. A refused answer has zeros from `work` on. */
typedef struct {
    uint32_t refusal;   /* 0, 1 to 9, or 13 */
    size_t line;        /* the line that is refused, or 0 */
    size_t field;       /* its field that is bad, or 0 */
    uint32_t work;      /* C, the transmissions of one packet: links x tries */
    uint32_t bound;     /* the delay bound; 0 for a flow that was not judged */
    uint32_t deadline;  /* the flow's deadline */
    uint32_t judged;    /* 1 if the flow was judged, 0 if it follows one over its deadline */
} rembasuk_fixed_bounds_answer;

/* The verdict for fixed priority on the set in `text`. Refusals: 1 to 9. */
rembasuk_fixed_verdict_answer rembasuk_fixed_verdict(const uint8_t *text, size_t text_length);

/* The bound by fixed priority of flow number `flow`, counted from 0 in order of the lines, which is their order of priority too.
 * Refusals: 1 to 9, then 13. */
rembasuk_fixed_bounds_answer rembasuk_fixed_bounds(const uint8_t *text, size_t text_length, uint32_t flow);

/* One slot by fixed priority: buffers, answer and refusals are those of rembasuk_slot. */
rembasuk_slot_answer rembasuk_fixed_slot(const uint8_t *text, size_t text_length, uint8_t *state, size_t state_length, uint8_t *lines,
                                         size_t lines_length);

/* What is said of a superframe. A refused answer has zeros from `hyper` on. */
typedef struct {
    uint32_t refusal;   /* 0, 1 to 9, 14, 15, 16, and 10 where a table is lent, in this order where several apply */
    size_t line;        /* the line that is refused, or 0 */
    size_t field;       /* its field that is bad, or 0 */
    uint32_t hyper;     /* the hyper-period in slots, 1 to 65535; 1 with no flows */
    size_t numbers;     /* how many 16-bit numbers the table has, four a transmission */
} rembasuk_superframe_answer;

/* How long the superframe of the set in `text` is: what a host has to lend. Refusals: 1 to 9, then 14, 15, 16. */
rembasuk_superframe_answer rembasuk_superframe_size(const uint8_t *text, size_t text_length);

/* The superframe of the set in `text`, at the start of `table`, whose further numbers stay as they were. `room` counts 16-bit numbers, as
 * `numbers` does. On any refusal the table does not change. Refusals: 1 to 9, then 14, 15, 16, 10. */
rembasuk_superframe_answer rembasuk_superframe(const uint8_t *text, size_t text_length, uint16_t *table, size_t room);

/* What writing a table's lines wrote. */
typedef struct {
    uint32_t refusal;   /* 0 or 10 */
    size_t line;        /* 0 */
    size_t length;      /* how many bytes of the buffer are the lines; 0 if refused */
} rembasuk_lines_answer;

/* What reading a table's lines wrote. */
typedef struct {
    uint32_t refusal;   /* 0, 1 or 10 */
    size_t line;        /* the line that is refused, or 0 */
    size_t numbers;     /* how many 16-bit numbers of the table were read, four a line; 0 if refused */
} rembasuk_rows_answer;

/* A table of `numbers` 16-bit numbers as lines at the start of `lines`, whose further bytes stay as they were: each row four numbers parted by
 * one tab and ended by LF, no word. Any table is taken: up to three numbers behind the last whole row don't count, and its order is not
 * tested. On a refusal no byte changes. Refusals: 10. */
rembasuk_lines_answer rembasuk_table_write(const uint16_t *table, size_t numbers, uint8_t *lines, size_t room);

/* Such lines read into the start of `table`, whose further numbers stay as they were. 1 names the first line that has not this form or whose
 * slot and offset do not rise strictly above those of the line before; then 10 where the rows don't fit. An empty text is an empty
 * table. No set is asked: flows, numbers and offsets are not tested. On a refusal the table does not change. */
rembasuk_rows_answer rembasuk_table_read(const uint8_t *lines, size_t length, uint16_t *table, size_t room);

/* The radio channel of an offset in a slot: the one at place (slot + offset) mod m among the m channels of the map in rising order. 0 for map 0
 * and for a number above 65535, which is no map. */
uint32_t rembasuk_channel(uint32_t map, uint32_t slot, uint32_t offset);

#ifdef __cplusplus
}
#endif

#endif
