//! Compares the proved planner with the second one on every function, for a bounded time, with seeds that it prints.
//! A difference prints the input as text and fails. Every refusal number that is made so far must have been seen, also through the functions
//! that a user holds, and half of the good sets must have had a node that returns later in a route.

mod calls;
mod loading;
mod named;
mod order;
mod ranking;

use compare::{Bounds, Fault, Record, Verdict};
use order::{Order, DEADLINE};
use second::inputs::{records, sets, texts, Rng};
use second::write::text_of;
use second::{Planner, Refusal, Set, Slot, State, LAST_MADE, REFUSALS};
use std::time::{Duration, Instant};

/// How many seeds are compared side by side, for the machine's two processors.
const WORKERS: u64 = 2;

/// What was compared, and how often each refusal was made, by any function and by those that a user holds.
struct Tally {
    seed: u64,
    seeds: u64,
    refusals: [u64; REFUSALS],
    called: [u64; REFUSALS],
    /// How often lines of a table were refused with each.
    lines: [u64; REFUSALS],
    /// The same of calls by fixed priority; and sets that were run by it, admitted ones among them.
    ranked: [u64; REFUSALS],
    ranked_sets: u64,
    ranked_admitted: u64,
    /// Tables that were repeated beside the slots.
    repeated: u64,
    inputs: u64,
    slots: u64,
    packets: u64,
    admitted: u64,
    /// Good sets, and those of them with a route that comes back to a node.
    sets: u64,
    returning: u64,
}

impl Tally {
    fn new(seed: u64) -> Tally {
        let seen = [0; REFUSALS];
        let (seeds, inputs, slots, packets, admitted, repeated, sets, returning) = Default::default();
        let (lines, ranked, ranked_sets, ranked_admitted) = (seen, seen, 0, 0);
        let (refusals, called) = (seen, seen);
        Tally {
            seed, seeds, refusals, called, lines, ranked, ranked_sets, ranked_admitted, repeated, inputs, slots, packets, admitted, sets, returning,
        }
    }

    /// What another worker compared counts too.
    fn add(&mut self, other: &Tally) {
        for n in 0..REFUSALS {
            self.refusals[n] += other.refusals[n];
            self.called[n] += other.called[n];
            self.lines[n] += other.lines[n];
            self.ranked[n] += other.ranked[n];
        }
        self.ranked_sets += other.ranked_sets;
        self.ranked_admitted += other.ranked_admitted;
        self.seeds += other.seeds;
        self.repeated += other.repeated;
        self.inputs += other.inputs;
        self.slots += other.slots;
        self.packets += other.packets;
        self.admitted += other.admitted;
        self.sets += other.sets;
        self.returning += other.returning;
    }

    /// Counts an input that is a good set.
    fn saw(&mut self, set: &Set, refusal: Refusal) {
        if !refusal.refuses() {
            self.sets += 1;
            self.returning += u64::from(sets::returns(set));
        }
    }

    /// Holds what both planners say of a refusal together, and counts it.
    fn fault(&mut self, what: &str, input: &Set, proved: Fault, other: Refusal) {
        self.refusals[usize::from(other.number)] += 1;
        self.hold(what, input, proved == other.into(), || format!("{proved:?} and {other:?}"));
    }

    /// Fails with the input where the two differ.
    fn hold(&mut self, what: &str, input: &Set, same: bool, told: impl Fn() -> String) {
        self.inputs += 1;
        if !same {
            println!("seed {}: {what} differs: {}", self.seed, told());
            println!("map {} count {}", input.map, input.count);
            for flow in &input.flows[..usize::from(input.count).min(64)] {
                println!("{flow:?}");
            }
            println!("{}", String::from_utf8_lossy(&text_of(input)));
            std::process::exit(1);
        }
    }
}

fn main() {
    let seconds = std::env::args().nth(1).and_then(|s| s.parse().ok()).unwrap_or(50);
    let first: u64 = std::env::args().nth(2).and_then(|s| s.parse().ok()).unwrap_or(1);
    let end = Instant::now() + Duration::from_secs(seconds);
    let mut tally = Tally::new(first);
    named::run_only(&mut tally);
    named::found_by_hand(&mut tally);
    named::at_the_limits(&mut tally);
    named::refused(&mut tally);
    named::fields(&mut tally);
    named::behind_the_end(&mut tally);
    calls::named(&mut tally);
    loading::named(&mut tally);
    ranking::named(&mut tally);
    let workers: Vec<_> = (0..WORKERS).map(|w| std::thread::spawn(move || seeds(first + w, end))).collect();
    for worker in workers {
        tally.add(&worker.join().expect("a worker ends"));
    }
    println!("{} seeds from {first} on: {} comparisons, {} slots, {} packets of {} admitted sets", tally.seeds, tally.inputs, tally.slots,
        tally.packets, tally.admitted);
    println!("{} good sets, {} of them with a returning node", tally.sets, tally.returning);
    println!("refusals seen: {}", counts(&tally.refusals));
    println!("refusals seen of what C calls and of plan: {}", counts(&tally.called));
    println!("{} tables repeated beside the slots; refusals seen of a table's lines: {}", tally.repeated, counts(&tally.lines));
    println!("{} sets run by fixed priority, {} of them admitted; refusals seen of its calls: {}", tally.ranked_sets, tally.ranked_admitted,
        counts(&tally.ranked));
    let everywhere = [tally.refusals, tally.called].iter().all(|seen| !seen[..=LAST_MADE].contains(&0));
    if !everywhere || !loading::every_line(&tally.lines) || !ranking::every_refusal(&tally.ranked) {
        println!("a refusal number was never seen");
        std::process::exit(1);
    }
    if 2 * tally.returning < tally.sets {
        println!("fewer than half of the sets have a returning node");
        std::process::exit(1);
    }
}

/// Every `WORKERS`th seed from the first on, until the time is over.
fn seeds(first: u64, end: Instant) -> Tally {
    let mut tally = Tally::new(first);
    while Instant::now() < end {
        let mut rng = Rng::new(tally.seed);
        for _ in 0..20 {
            read_and_write(&mut tally, &texts::any(&mut rng));
            let faults = rng.pick(&texts::pairs());
            named::damaged(&mut tally, &texts::damaged(&mut rng, faults));
            over_record(&mut tally, &mut rng);
            let text = if rng.once_in(2) { texts::good(&mut rng) } else { texts::any(&mut rng) };
            calls::over_text(&mut tally, &mut rng, &text);
            ranking::over_text(&mut tally, &mut rng, &text);
        }
        long_run(&mut tally, &mut rng);
        calls::walk(&mut tally, &mut rng);
        loading::over_seed(&mut tally, &mut rng);
        ranking::over_seed(&mut tally, &mut rng);
        tally.seed += WORKERS;
        tally.seeds += 1;
    }
    tally
}

/// How often each refusal was made, up to the last number there is, where it was.
fn counts(refusals: &[u64; REFUSALS]) -> String {
    let seen = refusals.iter().enumerate().filter(|(_, times)| **times > 0);
    seen.map(|(n, times)| format!("{n}: {times}")).collect::<Vec<_>>().join(", ")
}

/// The reader, and the writer on what was read.
fn read_and_write(tally: &mut Tally, text: &[u8]) {
    let other = second::read(text);
    tally.saw(&other.set, other.refusal);
    let (fault, set) = compare::read(text);
    tally.fault(&format!("reading {:?}", String::from_utf8_lossy(text)), &other.set, fault, other.refusal);
    tally.hold("the set read", &other.set, set == other.set, || String::from_utf8_lossy(text).into());
    if !other.refusal.refuses() {
        let mut out = vec![0xa5u8; text.len() + 3];
        let written = Record::new(&set).write(&mut out);
        tally.hold("the text written again", &set, written.length == text.len() && out[..text.len()] == *text, || format!("{written:?}"));
        tally.hold("the bytes after the text", &set, out[text.len()..] == [0xa5; 3], || format!("{written:?}"));
    }
}

/// Every function over a record, good or not, from any state.
fn over_record(tally: &mut Tally, rng: &mut Rng) {
    let mut set = if rng.once_in(2) { records::record(rng) } else { sets::any(rng) };
    if rng.once_in(2) {
        records::garbage(rng, &mut set);
    }
    let record = Record::new(&set);
    tally.saw(&set, second::check(&set));
    tally.fault("the record check", &set, record.fault(), second::check(&set));
    write_record(tally, rng, &set, &record);
    delays(tally, rng, &set, &record);
    let st = records::state(rng, &set);
    one_step(tally, &DEADLINE, &set, &record, &st);
    ranking::over_record(tally, rng, &set);
}

fn write_record(tally: &mut Tally, rng: &mut Rng, set: &Set, record: &Record) {
    let room = if rng.once_in(4) { rng.below(200) } else { 8200 };
    let (mut ours, mut theirs) = (vec![0x5au8; room], vec![0x5au8; room]);
    let (a, b) = (record.write(&mut ours), second::write(set, &mut theirs));
    tally.fault("the writer's refusal", set, a.fault, b.refusal);
    tally.hold("what the writer wrote", set, a.length == b.bytes && ours == theirs, || format!("{a:?}, {b:?}"));
}

fn delays(tally: &mut Tally, rng: &mut Rng, set: &Set, record: &Record) {
    hold_verdict(tally, set, record.verdict(), second::verdict(set));
    for k in [0, rng.below(64) as u16, rng.below(66) as u16, rng.word()] {
        hold_bounds(tally, set, record.bounds(k), second::bound(set, k.into()));
    }
}

fn hold_verdict(tally: &mut Tally, set: &Set, a: Verdict, b: second::Verdict) {
    tally.fault("the verdict's refusal", set, a.fault, b.refusal);
    let same = (a.basic, a.tightened, a.rounds) == (b.basic.into(), b.tightened.into(), b.rounds);
    tally.hold("the verdict", set, same, || format!("{a:?}, {b:?}"));
}

fn hold_bounds(tally: &mut Tally, set: &Set, a: Bounds, b: second::Bound) {
    tally.fault("a bound's refusal", set, a.fault, b.refusal);
    let same = (a.work, a.basic, a.tightened, a.deadline, a.margin) == (b.c, b.basic, b.tightened, b.deadline, b.margin);
    tally.hold("a bound", set, same, || format!("{a:?}, {b:?}"));
}

/// One step from a state by one of the orders, refused or not.
fn one_step(tally: &mut Tally, order: &Order, set: &Set, record: &Record, st: &State) {
    let (a, b) = ((order.step)(record, st), (order.second_step)(set, st));
    let told = || format!("{}, {st:?}: {a:?}, {b:?}", order.name);
    tally.slots += 1;
    tally.fault("a step's refusal", set, a.fault, b.refusal);
    let sends = a.sends.iter().map(|x| (x.slot, x.flow, x.from, x.to, x.attempt, x.offset, x.channel));
    let others = b.slot.sends.iter().map(|x| {
        (st.slot, x.flow.into(), x.from, x.to, x.attempt.into(), x.offset.into(), x.channel.into())
    });
    tally.hold("a slot's sends", set, sends.eq(others), told);
    let delivered = a.delivered.iter().map(|x| (x.flow, x.delay)).eq(b.slot.delivered.iter().map(|x| (x.flow.into(), x.delay)));
    let dropped = a.dropped.iter().copied().eq(b.slot.dropped.iter().map(|x| u16::from(*x)));
    tally.hold("a slot's reports", set, delivered && dropped && a.blank, told);
    tally.hold("the next state", set, a.next == b.state, told);
}

/// Thousands of slots of one set from the fresh state, with demand 3 checked where a test admits it.
fn long_run(tally: &mut Tally, rng: &mut Rng) {
    let set = if rng.once_in(2) { sets::tight(rng) } else { sets::any(rng) };
    let Ok(planner) = Planner::new(&set) else { return };
    tally.saw(&set, Refusal::NONE);
    let delays = planner.delays();
    let budget = 500 + rng.below(2500) as u32;
    let verdict = delays.verdict();
    let tests = [(verdict.basic, &delays.basic), (verdict.tightened, &delays.tightened)];
    let promised: Vec<&[u32]> = tests.iter().filter(|test| test.0).map(|test| &test.1[..delays.count]).collect();
    let packets = run_beside(tally, &DEADLINE, &set, budget, &promised);
    if !promised.is_empty() {
        tally.admitted += 1;
        tally.packets += packets;
    }
}

/// Slots of a set from the fresh state by one of the orders, some of them compared, and the run of as many. Each list of bounds is promised
/// to the first flows: none of their packets is later, and none is dropped. Answers how many packets were delivered.
fn run_beside(tally: &mut Tally, order: &Order, set: &Set, budget: u32, promised: &[&[u32]]) -> u64 {
    let record = Record::new(set);
    let Some(mut step) = (order.second_machine)(set) else { return 0 };
    let (mut st, mut slot, mut delivered, mut dropped) = (State::FRESH, Slot::new(), 0, 0);
    for _ in 0..budget {
        if tally.slots % 7 == 0 {
            one_step(tally, order, set, &record, &st);
        }
        step(&mut st, &mut slot);
        tally.slots += 1;
        delivered += slot.delivered.len() as u64;
        dropped += slot.dropped.len() as u64;
        for bounds in promised {
            let late = slot.delivered.iter().any(|d| bounds.get(usize::from(d.flow)).is_some_and(|&bound| u32::from(d.delay) > bound));
            let lost = slot.dropped.iter().any(|&flow| usize::from(flow) < bounds.len());
            tally.hold("demand 3: a packet late or lost", set, !late && !lost, || format!("{}, {slot:?}", order.name));
        }
    }
    let ran = (order.run)(&record, budget);
    let same = ran.last == st && ran.delivered == delivered && ran.dropped == dropped;
    tally.hold("a run", set, same, || format!("{}, {budget} slots: {ran:?}, {st:?}, {delivered}, {dropped}", order.name));
    delivered
}
