//! Request 4: the test for fixed priority over records and over texts, and demand 3 flow by flow. Its slots, runs and program go through the
//! same comparisons as document 01's, by the order `NUMBER`.

use crate::order::NUMBER;
use crate::{calls, named, one_step, run_beside, Tally};
use compare::{FixedBounds, FixedVerdict, Record};
use second::fixed::{fixed_bound_of_text, fixed_of, fixed_verdict_of_text};
use second::inputs::ranked::{self, Ranked};
use second::inputs::{records, Rng};
use second::write::text_of;
use second::{Refusal, Set, State, REFUSALS};

/// What one seed draws: sets for fixed priority as text, from the fresh state, and as a record with anything where nothing counts; and a long run.
pub fn over_seed(tally: &mut Tally, rng: &mut Rng) {
    for _ in 0..8 {
        let mut set = ranked::any(rng);
        calls::walk_over(tally, &NUMBER, rng, &text_of(&set), 12);
        over_text(tally, rng, &text_of(&set));
        records::garbage(rng, &mut set);
        over_record(tally, rng, &set);
    }
    long_run(tally, rng);
}

/// Every function over a record, good or not, from any state.
pub fn over_record(tally: &mut Tally, rng: &mut Rng, set: &Set) {
    let record = Record::new(set);
    hold_verdict(tally, set, record.fixed_verdict(), second::fixed_verdict(set));
    for k in [0, rng.below(64) as u16, rng.below(66) as u16, rng.word()] {
        hold_bounds(tally, set, record.fixed_bounds(k), second::fixed_bound(set, k.into()));
    }
    let st = records::state(rng, set);
    one_step(tally, &NUMBER, set, &record, &st);
}

/// Every call over a text.
pub fn over_text(tally: &mut Tally, rng: &mut Rng, text: &[u8]) {
    let (set, other) = (second::read(text).set, fixed_verdict_of_text(text));
    count(tally, other.refusal);
    hold_verdict(tally, &set, compare::text_fixed_verdict(text), other);
    for flow in [0, rng.below(66) as u32, rng.bits() as u32, 65_536 + rng.below(64) as u32] {
        let other = fixed_bound_of_text(text, flow);
        count(tally, other.refusal);
        hold_bounds(tally, &set, compare::text_fixed_bounds(text, flow), other);
    }
    calls::slot_and_program(tally, &NUMBER, rng, text);
}

/// Every flow's bound, and that of none, over the text and over the record.
pub fn every_bound(tally: &mut Tally, text: &[u8], set: &Set) {
    let record = Record::new(set);
    hold_verdict(tally, set, record.fixed_verdict(), second::fixed_verdict(set));
    hold_verdict(tally, set, compare::text_fixed_verdict(text), fixed_verdict_of_text(text));
    for flow in 0..=set.count {
        hold_bounds(tally, set, record.fixed_bounds(flow), second::fixed_bound(set, flow.into()));
        hold_bounds(tally, set, compare::text_fixed_bounds(text, flow.into()), fixed_bound_of_text(text, flow.into()));
    }
}

fn hold_verdict(tally: &mut Tally, set: &Set, a: FixedVerdict, b: second::FixedVerdict) {
    tally.fault("the fixed verdict's refusal", set, a.fault, b.refusal);
    tally.hold("the fixed verdict", set, (a.admitted, a.judged) == (b.admitted.into(), b.judged), || format!("{a:?}, {b:?}"));
}

fn hold_bounds(tally: &mut Tally, set: &Set, a: FixedBounds, b: second::FixedBound) {
    tally.fault("a fixed bound's refusal", set, a.fault, b.refusal);
    let same = (a.work, a.bound, a.deadline, a.judged) == (b.c, b.bound, b.deadline, b.judged.into());
    tally.hold("a fixed bound", set, same, || format!("{a:?}, {b:?}"));
}

/// Thousands of slots of one set: the flows before the first over its deadline keep the proved bounds, which are all of an admitted set.
fn long_run(tally: &mut Tally, rng: &mut Rng) {
    let set = ranked::any(rng);
    let record = Record::new(&set);
    let kept = fixed_of(&set).kept();
    let bounds: Vec<u32> = (0..kept as u16).map(|k| record.fixed_bounds(k).bound).collect();
    let budget = 500 + rng.below(2500) as u32;
    run_beside(tally, &NUMBER, &set, budget, &[&bounds]);
    let admitted = record.fixed_verdict().admitted == 1;
    tally.hold("whom demand 3 is promised", &set, admitted == (kept == set.used().len()), || format!("{kept} flows"));
    tally.ranked_sets += 1;
    tally.ranked_admitted += u64::from(admitted);
}

/// The request's sets: the proved answers are those found by hand, and then every function's are the second planner's.
pub fn named(tally: &mut Tally) {
    for row in ranked::named() {
        let set = compare::read(row.text.as_bytes()).1;
        expected(tally, &row, &set);
        named::through_both(tally, row.text.as_bytes(), &set);
    }
}

fn expected(tally: &mut Tally, row: &Ranked, set: &Set) {
    let (text, record) = (row.text.as_bytes(), Record::new(set));
    for verdict in [compare::text_fixed_verdict(text), record.fixed_verdict()] {
        let same = (verdict.admitted == 1, verdict.judged) == (row.admitted, row.judged);
        tally.hold(row.name, set, same, || format!("{verdict:?}"));
    }
    for (flow, &bound) in (0..).zip(&row.bounds) {
        for bounds in [compare::text_fixed_bounds(text, flow), record.fixed_bounds(flow as u16)] {
            let same = (bounds.bound, bounds.judged == 1) == (bound, flow < row.judged);
            tally.hold(row.name, set, same, || format!("flow {flow}: {bounds:?}"));
        }
    }
    let (mut st, mut sends, mut delivered, mut dropped) = (State::FRESH, Vec::new(), Vec::new(), Vec::new());
    for t in 0..12 {
        let step = record.fixed_step(&st);
        sends.extend(step.sends.iter().map(|sent| (t, sent.flow as u8)));
        delivered.extend(step.delivered.iter().map(|packet| (t, packet.flow as u8, packet.delay)));
        dropped.extend(step.dropped.iter().map(|&flow| (t, flow as u8)));
        st = step.next;
    }
    let same = sends == row.sends && delivered == row.delivered && dropped == row.dropped;
    tally.hold(row.name, set, same, || format!("{sends:?}, {delivered:?}, {dropped:?}"));
}

/// Counts a refusal of what a user holds of fixed priority.
pub fn count(tally: &mut Tally, refusal: Refusal) {
    calls::count(tally, refusal);
    tally.ranked[usize::from(refusal.number)] += 1;
}

/// Whether every refusal that these calls have was seen.
pub fn every_refusal(seen: &[u64; REFUSALS]) -> bool {
    seen[..=13].iter().all(|&times| times > 0)
}
