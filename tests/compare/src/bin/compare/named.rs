//! Cases with a name: document 01's "run only" list, sets whose answers were found by hand, and each refusal by itself. The proved planner's
//! answers are held against the expected ones, and then every function against the second planner's.

use crate::order::{Order, DEADLINE, NUMBER};
use crate::{calls, hold_bounds, hold_verdict, loading, one_step, ranking, read_and_write, Tally};
use compare::{Fault, Record};
use second::host::{bytes_of_state, step_of_text, verdict_of_text};
use second::inputs::named::{self, Named};
use second::inputs::{ring64, sets, texts, Rng};
use second::write::text_of;
use second::{Refusal, Set, Slot, State};

/// How many slots of a named set are compared one by one.
const SLOTS: u32 = 60;

/// Every named set through C and through the records.
pub fn found_by_hand(tally: &mut Tally) {
    for named in named::sets() {
        let set = compare::read(named.text.as_bytes()).1;
        expected(tally, &named, &set);
        through_both(tally, named.text.as_bytes(), &set);
    }
}

/// A set that is good: its text read and written, and every function of both orders over the text and over the record.
pub fn through_both(tally: &mut Tally, text: &[u8], set: &Set) {
    read_and_write(tally, text);
    through_c(tally, text, set);
    through_records(tally, set);
}

/// The sets that are measured: as many flows, nodes, rounds and bytes as there can be; and 16 and 17 flows, on either side of where the second
/// planner goes over to sums of all 64 places.
pub fn at_the_limits(tally: &mut Tally) {
    let few = |count| Set { count, ..sets::full(&mut Rng::new(1)) };
    for set in [few(16), few(17), few(64), sets::roomy(64), sets::alike(9), sets::alike(64), sets::busy(), sets::longest(), sets::loops()] {
        through_both(tally, &text_of(&set), &set);
    }
    // of the ring not every flow's bounds: each takes thousands of rounds
    calls::over_text(tally, &mut Rng::new(tally.seed), &text_of(&ring64()));
    ranking::every_bound(tally, &text_of(&ring64()), &ring64());
}

/// What the proved planner answers is what was found by hand.
fn expected(tally: &mut Tally, named: &Named, set: &Set) {
    let (text, record) = (named.text.as_bytes(), Record::new(set));
    for verdict in [compare::text_verdict(text), record.verdict()] {
        let answer = (verdict.basic == 1, verdict.tightened == 1, verdict.rounds);
        tally.hold(named.name, set, answer == named.verdict, || format!("{verdict:?}"));
    }
    for &(flow, basic, tightened) in &named.bounds {
        for bounds in [compare::text_bounds(text, flow), record.bounds(flow as u16)] {
            let same = (bounds.basic, bounds.tightened) == (basic, tightened);
            tally.hold(named.name, set, same, || format!("flow {flow}: {bounds:?}"));
        }
    }
    let Some(delivered) = &named.delivered else { return };
    let (mut st, mut found) = (State::FRESH, Vec::new());
    for t in 0..12 {
        let step = record.step(&st);
        found.extend(step.delivered.iter().map(|d| (t, d.flow as u8, d.delay)));
        st = step.next;
    }
    tally.hold(named.name, set, found == *delivered, || format!("{found:?}"));
}

/// Verdict, bounds of every flow and of none, slots one after the other, the plan.
fn through_c(tally: &mut Tally, bytes: &[u8], set: &Set) {
    let mut rng = Rng::new(tally.seed);
    hold_verdict(tally, set, compare::text_verdict(bytes), verdict_of_text(bytes));
    for flow in 0..=u32::from(set.count) {
        hold_bounds(tally, set, compare::text_bounds(bytes, flow), second::host::bound_of_text(bytes, flow));
    }
    ranking::every_bound(tally, bytes, set);
    for order in [&DEADLINE, &NUMBER] {
        calls::walk_over(tally, order, &mut rng, bytes, SLOTS);
    }
    calls::over_text(tally, &mut rng, bytes);
    ranking::over_text(tally, &mut rng, bytes);
}

/// Every function over the record: from the fresh state, and from a state at which every flow has started.
fn through_records(tally: &mut Tally, set: &Set) {
    let record = Record::new(set);
    tally.fault("the record check", set, record.fault(), second::check(set));
    hold_verdict(tally, set, record.verdict(), second::verdict(set));
    for flow in 0..=set.count {
        hold_bounds(tally, set, record.bounds(flow), second::bound(set, flow.into()));
    }
    for order in [&DEADLINE, &NUMBER] {
        through_slots(tally, order, set, &record);
    }
}

/// Slots of one of the orders up to where every flow has started, those at both ends compared, and the run of as many.
fn through_slots(tally: &mut Tally, order: &Order, set: &Set, record: &Record) {
    let Some(mut step) = (order.second_machine)(set) else { return };
    let (mut st, mut slot) = (State::FRESH, Slot::new());
    let (mut delivered, mut dropped) = (0, 0);
    for t in 0..66_000 {
        if t < SLOTS || t > 66_000 - SLOTS || t.abs_diff(65_535) < 10 {
            one_step(tally, order, set, record, &st);
        }
        step(&mut st, &mut slot);
        delivered += slot.delivered.len() as u64;
        dropped += slot.dropped.len() as u64;
    }
    let ran = (order.run)(record, 66_000);
    let same = ran.last == st && ran.delivered == delivered && ran.dropped == dropped;
    tally.hold("a run", set, same, || format!("{}: {ran:?}, {st:?}, {delivered}, {dropped}", order.name));
}

/// Records of which only the nodes of the route count: their last node stands once more behind the route's end.
pub fn behind_the_end(tally: &mut Tally) {
    let mut set = compare::read(b"set\t1\nflow\t99\t99\t0\t1\t1\t2\n").1;
    for (last, behind) in [(2, 2), (0, 0), (65_535, 65_535), (2, 1)] {
        set.flows[0].route[1] = last;
        set.flows[0].route[2..].fill(behind);
        for nodes in 1..=18 {
            set.flows[0].nodes = nodes;
            let number = match nodes {
                2 => 0,
                3 if last != behind => 0,
                3..=17 => 8,
                _ => 7,
            };
            let line = if number == 0 { 0 } else { 2 };
            hold_fault(tally, "nodes behind a route's end", Record::new(&set).fault(), Refusal::at(number, line));
            through_records(tally, &set);
        }
    }
}

/// Each refusal of a text by itself, then 10 to 13 by themselves.
pub fn refused(tally: &mut Tally) {
    let mut rng = Rng::new(tally.seed);
    for (name, text, refusal) in named::refused() {
        refused_text(tally, &mut rng, name, text.as_bytes(), refusal);
    }
    let text = b"set\t3\nflow\t10\t8\t0\t1\t1\t2\t3\nflow\t20\t20\t0\t1\t4\t2\t5\n";
    let record = Record::new(&compare::read(text).1);
    for flow in [2, 63, 64, 65_536, u32::MAX] {
        for fault in [compare::text_bounds(text, flow).fault, compare::text_fixed_bounds(text, flow).fault] {
            hold_fault(tally, "no flow of that number", fault, Refusal::at(13, 0));
        }
    }
    let bad = |slot, count: u8, beyond: u8| {
        let mut st = State { slot, ..State::FRESH };
        (st.sent[0], st.sent[2]) = (count, beyond);
        st
    };
    let states = [
        ("a slot above the last", bad(4_000_000_001, 0, 0), 12),
        ("a count above C", bad(0, 3, 0), 12),
        ("a count above C at the last slot", bad(4_000_000_000, 3, 0), 12),
        ("a count beyond the last flow", bad(0, 0, 1), 12),
        ("the last slot", bad(4_000_000_000, 2, 0), 11),
    ];
    let length = step_of_text(text, &mut bytes_of_state(&State::FRESH), &mut [0; 100]).bytes;
    for order in [&DEADLINE, &NUMBER] {
        for &(name, st, number) in &states {
            let lines = &mut [0; 100];
            hold_fault(tally, name, (order.slot)(text, &mut bytes_of_state(&st), lines).fault, Refusal::at(number, 0));
            hold_fault(tally, name, (order.step)(&record, &st).fault, Refusal::at(number, 0));
        }
        for (room, number) in [(0, 10), (length - 1, 10), (length, 0)] {
            let (mut state, mut lines) = (bytes_of_state(&State::FRESH), vec![0; room]);
            hold_fault(tally, "room for a slot's lines", (order.slot)(text, &mut state, &mut lines).fault, Refusal::at(number, 0));
        }
        hold_fault(tally, "67 bytes of state", (order.slot)(text, &mut [0; 67], &mut [0; 100]).fault, Refusal::at(12, 0));
    }
}

fn hold_fault(tally: &mut Tally, name: &str, fault: Fault, refusal: Refusal) {
    tally.hold(name, &Set::BLANK, fault == refusal.into(), || format!("{fault:?}, not {refusal:?}"));
}

/// A text that must be refused just so, by the reader and by every call of C; and then as the second planner says.
fn refused_text(tally: &mut Tally, rng: &mut Rng, name: &str, text: &[u8], refusal: Refusal) {
    let faults = [
        compare::read(text).0,
        compare::text_verdict(text).fault,
        compare::text_bounds(text, 0).fault,
        compare::text_all_bounds(text, &mut []).fault,
        compare::text_slot(text, &mut [], &mut []).fault,
        compare::text_superframe_size(text).fault,
        compare::text_superframe(text, &mut []).fault,
        compare::text_fixed_verdict(text).fault,
        compare::text_fixed_bounds(text, 0).fault,
        compare::text_fixed_slot(text, &mut [], &mut []).fault,
    ];
    for fault in faults {
        hold_fault(tally, name, fault, refusal);
    }
    read_and_write(tally, text);
    calls::over_text(tally, rng, text);
    loading::over_text(tally, rng, text);
    ranking::over_text(tally, rng, text);
}

/// Request 3: its texts, every pair of faults in a line, and lines of 8,000 and of 100,000 fields.
pub fn fields(tally: &mut Tally) {
    let mut rng = Rng::new(tally.seed);
    for (text, refusal) in named::fields() {
        refused_text(tally, &mut rng, &format!("the field of {text:?}"), text.as_bytes(), refusal);
    }
    for faults in texts::pairs() {
        for _ in 0..20 {
            let damaged = texts::damaged(&mut rng, faults);
            refused_text(tally, &mut rng, &format!("a line with {faults:?}"), &damaged.text, damaged.refusal);
        }
    }
    for long in texts::long_lines() {
        refused_text(tally, &mut rng, "a long line", &long.text, long.refusal);
    }
}

/// A text with faults put into a line is refused for the lower one, at its field, whatever the second planner says.
pub fn damaged(tally: &mut Tally, damaged: &texts::Damaged) {
    hold_fault(tally, "a damaged text", compare::read(&damaged.text).0, damaged.refusal);
    read_and_write(tally, &damaged.text);
}

/// Document 01's "run only" list.
pub fn run_only(tally: &mut Tally) {
    let line = |t: u32, d: u32, nodes: u16| {
        let route: String = (0..nodes).map(|n| format!("\t{n}")).collect();
        format!("flow\t{t}\t{d}\t0\t1{route}\n")
    };
    let many = |n: usize| format!("set\t65535\n{}", line(100, 100, 2).repeat(n));
    let one = |f: String| format!("set\t1\n{f}");
    let sevens = |end: &str| format!("set\t3\nflow\t99\t99\t0\t1{}{end}", "\t7".repeat(32_000));
    let cases = [
        ("64 flows", many(64), 0),
        ("65 flows", many(65), 3),
        ("deadline equal to the period", one(line(50, 50, 2)), 0),
        ("deadline one above the period", one(line(50, 51, 2)), 5),
        ("17 nodes", one(line(50, 50, 17)), 0),
        ("18 nodes", one(line(50, 50, 18)), 7),
        ("32,000 nodes", sevens("\n"), 7),
        ("32,000 nodes and a bad number", sevens("\tx\n"), 1),
        ("32,000 nodes and no LF", sevens(""), 1),
        ("07", "set\t07\n".to_string(), 1),
        ("a missing last LF", "set\t7".to_string(), 1),
    ];
    for (name, text, number) in cases {
        let refusal = compare::read(text.as_bytes()).0.refusal;
        tally.hold(name, &Set::BLANK, refusal == number, || format!("refusal {refusal}"));
        read_and_write(tally, text.as_bytes());
    }
    let set = second::read(many(3).as_bytes()).set;
    let record = Record::new(&set);
    let mut short = vec![1u8; many(3).len() - 1];
    tally.hold("a buffer one byte short", &set, record.write(&mut short).fault.refusal == 10, String::new);
    tally.hold("a buffer one byte short stays", &set, short.iter().all(|b| *b == 1), String::new);
    for slot in [3_999_999_999, 4_000_000_000, 4_000_000_001] {
        for order in [&DEADLINE, &NUMBER] {
            one_step(tally, order, &set, &record, &State { slot, ..State::FRESH });
        }
    }
}
