//! The checks. Each takes the rules to try and hands back what it found wrong: nothing for the right rules, something
//! for every slip that it can catch.

use crate::definition::{self, Equation};
use second::check::check_with;
use second::delay::{Delays, PlannerWith};
use second::fixed::fixed_with;
use second::inputs::{named, records, sets, texts, Rng};
use second::machine::{MachineWith, BY_DEADLINE, BY_NUMBER};
use second::plan::print;
use second::read::read_with;
use second::slip;
use second::superframe::{hyper_with, sends_by_table, table_of};
use second::{read, Fixed, Flow, Read, Refusal, Set, Slot, State, Transmission};

/// The rules to try: a reader's, those of a record, a planner's, a machine's, a superframe's and those of fixed priority, any
/// of them with a slip in it.
#[derive(Clone, Copy)]
pub struct Rules {
    pub read: fn(&[u8]) -> Read,
    pub check: fn(&Set) -> Refusal,
    pub delays: fn(&Set) -> Delays,
    pub machine: fn(&Set) -> Box<dyn Steps>,
    /// The hyper-period, none above 65,536.
    pub hyper: fn(&Set) -> Option<u32>,
    /// The table of the first slots.
    pub table: fn(&Set, u32) -> Vec<u16>,
    /// What a table of so many slots has for a slot.
    pub by_table: fn(&Set, &[u16], u32, u32) -> Vec<Transmission>,
    /// The test for fixed priority, and its machine.
    pub fixed: fn(&Set) -> Fixed,
    pub fixed_machine: fn(&Set) -> Box<dyn Steps>,
}

/// A machine with whatever rules.
pub trait Steps {
    fn judge(&self, state: &State) -> Refusal;
    fn step(&mut self, state: &mut State, slot: &mut Slot) -> Refusal;
}

impl<const SLIP: u8, const ORDER: u8> Steps for MachineWith<SLIP, ORDER> {
    fn judge(&self, state: &State) -> Refusal {
        self.judge(state)
    }

    fn step(&mut self, state: &mut State, slot: &mut Slot) -> Refusal {
        self.step(state, slot)
    }
}

/// The documents' rules.
pub const RIGHT: Rules = Rules {
    read: read_with::<{ slip::NONE }>,
    check: check_with::<{ slip::NONE }>,
    delays: delays::<{ slip::NONE }>,
    machine: machine::<{ slip::NONE }, BY_DEADLINE>,
    hyper: hyper_with::<{ slip::NONE }>,
    table: table_of::<{ slip::NONE }>,
    by_table: sends_by_table::<{ slip::NONE }>,
    fixed: fixed_with::<{ slip::NONE }>,
    fixed_machine: machine::<{ slip::NONE }, BY_NUMBER>,
};

/// A slip in the reader.
pub fn reader_slip<const SLIP: u8>() -> Rules {
    Rules { read: read_with::<SLIP>, ..RIGHT }
}

/// A slip in the rules of a record.
pub fn record_slip<const SLIP: u8>() -> Rules {
    Rules { check: check_with::<SLIP>, ..RIGHT }
}

/// A slip in the planner.
pub fn planner_slip<const SLIP: u8>() -> Rules {
    Rules { delays: delays::<SLIP>, ..RIGHT }
}

/// A slip in the machine.
pub fn machine_slip<const SLIP: u8>() -> Rules {
    Rules { machine: machine::<SLIP, BY_DEADLINE>, ..RIGHT }
}

/// A slip in the test for fixed priority.
pub fn fixed_slip<const SLIP: u8>() -> Rules {
    Rules { fixed: fixed_with::<SLIP>, ..RIGHT }
}

/// A slip in its machine.
pub fn fixed_machine_slip<const SLIP: u8>() -> Rules {
    Rules { fixed_machine: machine::<SLIP, BY_NUMBER>, ..RIGHT }
}

/// A slip in the superframe.
pub fn superframe_slip<const SLIP: u8>() -> Rules {
    Rules { hyper: hyper_with::<SLIP>, table: table_of::<SLIP>, by_table: sends_by_table::<SLIP>, ..RIGHT }
}

fn delays<const SLIP: u8>(set: &Set) -> Delays {
    PlannerWith::<SLIP>::new(set).map_err(|refusal| format!("{refusal:?}")).unwrap().delays()
}

fn machine<const SLIP: u8, const ORDER: u8>(set: &Set) -> Box<dyn Steps> {
    Box::new(MachineWith::<SLIP, ORDER>::new(set).map_err(|refusal| format!("{refusal:?}")).unwrap())
}

/// Nothing wrong, or what is.
pub type Found = Result<(), String>;

/// Fails with the words where the claim is false.
pub fn claim(holds: bool, words: impl FnOnce() -> String) -> Found {
    if holds {
        Ok(())
    } else {
        Err(words())
    }
}

/// The set of a text that the reader accepts.
pub fn set_of(text: &str) -> Set {
    let read = read(text.as_bytes());
    assert!(!read.refusal.refuses(), "{:?} of {text}", read.refusal);
    read.set
}

/// One of document 01's sets on either side of a line, or of request 1's loops.
pub struct Paper {
    pub name: &'static str,
    pub text: &'static str,
    pub admits: [bool; 2],
    pub basic: &'static [u32],
    pub tightened: &'static [u32],
    /// The flows that each slot from 0 sends, by offset, and the flows it drops.
    pub slots: &'static [(&'static [u8], &'static [u8])],
}

pub const P1_TEXT: &str = "set\t3\nflow\t10\t8\t0\t1\t1\t2\t3\nflow\t20\t20\t0\t1\t4\t2\t5\n";

pub const P1_PLAN: &str = "verdict\t1\t1\t3
bound\t0\t2\t4\t2\t8\t6
bound\t1\t2\t6\t6\t20\t14
send\t0\t0\t1\t2\t0\t11
send\t1\t0\t2\t3\t0\t12
send\t2\t1\t4\t2\t0\t11
send\t3\t1\t2\t5\t0\t12
send\t10\t0\t1\t2\t0\t11
send\t11\t0\t2\t3\t0\t12
";

pub const P8_TEXT: &str = "set\t1\nflow\t10\t4\t0\t2\t1\t2\t3\n";

pub const P11_TEXT: &str = "set\t1\nflow\t10\t4\t0\t2\t1\t2\t1\n";

pub const L1_TEXT: &str = "set\t3\nflow\t20\t20\t0\t1\t1\t2\t3\t2\t1\nflow\t20\t20\t0\t1\t4\t2\n";

/// Flow 0 goes over the link 1-2 twice: flow 1's packet waits for all three of its links, and takes its very bound.
pub const L2_TEXT: &str = "set\t3\nflow\t10\t6\t0\t1\t1\t2\t1\t2\nflow\t10\t10\t0\t1\t2\t9\n";

pub const PAPER: [Paper; 11] = [
    Paper {
        name: "P1",
        text: P1_TEXT,
        admits: [true, true],
        basic: &[4, 6],
        tightened: &[2, 6],
        slots: &[(&[0], &[]), (&[0], &[]), (&[1], &[]), (&[1], &[]), (&[], &[])],
    },
    Paper {
        name: "P2",
        text: "set\t3\nflow\t10\t3\t0\t1\t1\t2\t3\nflow\t20\t20\t0\t1\t4\t2\t5\n",
        admits: [false, true],
        basic: &[4, 6],
        tightened: &[2, 6],
        slots: &[(&[0], &[]), (&[0], &[]), (&[1], &[]), (&[1], &[])],
    },
    Paper {
        name: "P3",
        text: "set\t15\nflow\t10\t1\t0\t1\t1\t2\nflow\t10\t1\t0\t1\t3\t4\nflow\t10\t1\t0\t1\t5\t6\n\
               flow\t10\t1\t0\t1\t7\t8\nflow\t10\t1\t0\t1\t9\t10\n",
        admits: [false, false],
        basic: &[2; 5],
        tightened: &[2; 5],
        slots: &[(&[0, 1, 2, 3], &[4]), (&[], &[])],
    },
    Paper {
        name: "P4",
        text: "set\t15\nflow\t10\t1\t0\t1\t1\t2\nflow\t10\t1\t0\t1\t3\t4\nflow\t10\t1\t0\t1\t5\t6\n\
               flow\t10\t1\t0\t1\t7\t8\n",
        admits: [true, true],
        basic: &[1; 4],
        tightened: &[1; 4],
        slots: &[(&[0, 1, 2, 3], &[]), (&[], &[])],
    },
    Paper {
        name: "P5",
        text: "set\t1\nflow\t10\t2\t0\t1\t1\t2\nflow\t10\t2\t0\t1\t3\t4\n",
        admits: [true, true],
        basic: &[2, 2],
        tightened: &[2, 2],
        slots: &[(&[0], &[]), (&[1], &[]), (&[], &[])],
    },
    Paper {
        name: "P6",
        text: "set\t1\nflow\t10\t2\t0\t1\t1\t2\nflow\t10\t2\t0\t1\t3\t4\nflow\t10\t2\t0\t1\t5\t6\n",
        admits: [false, false],
        basic: &[3, 3, 3],
        tightened: &[3, 3, 3],
        slots: &[(&[0], &[]), (&[1], &[2]), (&[], &[])],
    },
    Paper {
        name: "P7",
        text: "set\t3\nflow\t10\t10\t0\t1\t1\t2\nflow\t10\t10\t0\t1\t2\t3\nflow\t10\t10\t0\t1\t4\t5\n",
        admits: [true, true],
        basic: &[2, 2, 2],
        tightened: &[2, 2, 2],
        slots: &[(&[0, 2], &[]), (&[1], &[]), (&[], &[])],
    },
    Paper {
        name: "P8",
        text: P8_TEXT,
        admits: [true, true],
        basic: &[4],
        tightened: &[4],
        slots: &[(&[0], &[]), (&[0], &[]), (&[0], &[]), (&[0], &[]), (&[], &[])],
    },
    Paper {
        name: "P11",
        text: P11_TEXT,
        admits: [true, true],
        basic: &[4],
        tightened: &[4],
        slots: &[(&[0], &[]), (&[0], &[]), (&[0], &[]), (&[0], &[]), (&[], &[])],
    },
    Paper {
        name: "L1",
        text: L1_TEXT,
        admits: [true, true],
        basic: &[5, 5],
        tightened: &[5, 5],
        slots: &[(&[0], &[]), (&[0], &[]), (&[0], &[]), (&[0], &[]), (&[1], &[]), (&[], &[])],
    },
    Paper {
        name: "L2",
        text: L2_TEXT,
        admits: [true, true],
        basic: &[4, 4],
        tightened: &[3, 4],
        slots: &[(&[0], &[]), (&[0], &[]), (&[0], &[]), (&[1], &[]), (&[], &[])],
    },
];

/// Records of every kind against the rules of the definition; and named sets, which are good, behind whose routes' ends
/// nothing or the last node stands.
pub fn refusals(rules: Rules, seed: u64, draws: usize) -> Found {
    let mut rng = Rng::new(seed);
    for set in named::sets().iter().map(|named| set_of(&named.text)) {
        let mut untidy = set;
        records::garbage(&mut rng, &mut untidy);
        for set in [set, untidy] {
            claim((rules.check)(&set) == Refusal::NONE, || format!("{:?} is refused", set.used()))?;
        }
    }
    for _ in 0..draws {
        let set = records::record(&mut rng);
        let (number, line) = definition::refusal(&set);
        let found = (rules.check)(&set);
        claim(found == Refusal::at(number, line), || {
            format!("{found:?}, not {number} at {line}, of {:?}", set.used())
        })?;
    }
    Ok(())
}

/// A text is refused just so, and then the set is blank.
fn hold_refused(rules: Rules, text: &[u8], wanted: Refusal) -> Found {
    let read = (rules.read)(text);
    let start = || String::from_utf8_lossy(&text[..text.len().min(9_000)]);
    claim(read.refusal == wanted, || format!("{:?}, not {wanted:?}, of {:?}", read.refusal, start()))?;
    claim(!wanted.refuses() || read.set == Set::BLANK, || format!("no blank set of {:?}", start()))
}

/// The texts of request 3 and those that are refused for one thing: number, line and field as they say.
pub fn named_texts(rules: Rules) -> Found {
    named::fields().iter().try_for_each(|(text, refusal)| hold_refused(rules, text.as_bytes(), *refusal))?;
    named::refused().iter().try_for_each(|(_, text, refusal)| hold_refused(rules, text.as_bytes(), *refusal))
}

/// Texts with a very long line.
pub fn long_lines(rules: Rules) -> Found {
    texts::long_lines().iter().try_for_each(|long| hold_refused(rules, &long.text, long.refusal))
}

/// Texts with every pair of faults in a line, so many of each: the lower one decides, and its field.
pub fn damaged_texts(rules: Rules, seed: u64, draws: usize) -> Found {
    let mut rng = Rng::new(seed);
    for faults in texts::pairs() {
        for _ in 0..draws {
            let damaged = texts::damaged(&mut rng, faults);
            hold_refused(rules, &damaged.text, damaged.refusal)?;
        }
    }
    Ok(())
}

/// Texts of every kind against the definition.
pub fn texts(rules: Rules, seed: u64, draws: usize) -> Found {
    let mut rng = Rng::new(seed);
    for _ in 0..draws {
        let text = texts::any(&mut rng);
        hold_refused(rules, &text, definition::refusal_of_text(&text))?;
    }
    Ok(())
}

/// P1 to P8, P11 and the plan; P9 and P10 are refusals, which no slip touches.
pub fn paper(rules: Rules) -> Found {
    let first = set_of(P1_TEXT);
    let mut machine = (rules.machine)(&first);
    let plan = print(&(rules.delays)(&first), |state, slot| {
        machine.step(state, slot);
    });
    claim(plan == P1_PLAN.as_bytes(), || format!("the plan is {}", String::from_utf8_lossy(&plan)))?;
    for p in &PAPER {
        let set = set_of(p.text);
        let refusal = (rules.check)(&set);
        claim(refusal == Refusal::NONE, || format!("{}: {refusal:?}", p.name))?;
        let delays = (rules.delays)(&set);
        let verdict = delays.verdict();
        claim([verdict.basic, verdict.tightened] == p.admits, || format!("{}: {verdict:?}", p.name))?;
        let bounds = (&delays.basic[..delays.count], &delays.tightened[..delays.count]);
        claim(bounds == (p.basic, p.tightened), || format!("{}: {bounds:?}", p.name))?;
        let (mut machine, mut state, mut slot) = ((rules.machine)(&set), State::FRESH, Slot::default());
        for (sends, drops) in p.slots {
            machine.step(&mut state, &mut slot);
            let flows: Vec<u8> = slot.sends.iter().map(|sent| sent.flow).collect();
            claim(flows == *sends && slot.dropped == *drops, || format!("{}: {slot:?}", p.name))?;
        }
    }
    Ok(())
}

/// The tightened bounds of tiny sets against the greatest list found by trying all lists.
pub fn greatest(rules: Rules, seed: u64, draws: usize) -> Found {
    let mut rng = Rng::new(seed);
    for _ in 0..draws {
        let set = sets::tiny(&mut rng);
        let equation = Equation::of(&set);
        let list = equation.greatest().ok_or_else(|| format!("no greatest list of {:?}", set.used()))?;
        let wanted = equation.values(&list);
        let delays = (rules.delays)(&set);
        let bounds: Vec<i64> = delays.tightened[..delays.count].iter().map(|&bound| bound.into()).collect();
        claim(bounds == wanted, || format!("{bounds:?}, not {wanted:?}, of {:?}", set.used()))?;
    }
    Ok(())
}

/// Bounds of both tests and rounds of sets of every kind against the definition.
pub fn bounds(rules: Rules, seed: u64, draws: usize) -> Found {
    let mut rng = Rng::new(seed);
    for _ in 0..draws {
        let set = sets::any(&mut rng);
        let delays = (rules.delays)(&set);
        let equation = Equation::of(&set);
        let (list, rounds) = equation.rounds();
        let wanted = (equation.values(&definition::deadlines(&set)), equation.values(&list), rounds);
        let wide = |bounds: &[u32]| bounds[..delays.count].iter().map(|&bound| bound.into()).collect::<Vec<i64>>();
        let found = (wide(&delays.basic), wide(&delays.tightened), delays.rounds);
        claim(found == wanted, || format!("{found:?}, not {wanted:?}, of {:?}", set.used()))?;
    }
    Ok(())
}

/// Slots of sets of every kind from any good state, some of them in a row, against the definition.
pub fn slots(rules: Rules, seed: u64, draws: usize) -> Found {
    slots_of(rules.machine, definition::slot, sets::any, seed, draws)
}

/// The same for a machine and the definition of its slot.
pub fn slots_of(
    machine: fn(&Set) -> Box<dyn Steps>,
    slot_of: fn(&Set, &State) -> (State, Slot),
    draw: fn(&mut Rng) -> Set,
    seed: u64,
    draws: usize,
) -> Found {
    let mut rng = Rng::new(seed);
    for _ in 0..draws {
        let set = draw(&mut rng);
        let mut machine = machine(&set);
        for _ in 0..6 {
            let mut state = records::state(&mut rng, &set);
            for _ in 0..rng.within(1, 8) {
                if machine.judge(&state).refuses() {
                    break;
                }
                let (wanted, does) = slot_of(&set, &state);
                let mut slot = Slot::default();
                machine.step(&mut state, &mut slot);
                claim(slot == does && state == wanted, || format!("{slot:?}, not {does:?}, of {:?}", set.used()))?;
            }
        }
    }
    Ok(())
}

/// How demand 3 fared over many sets.
#[derive(Default, Debug)]
pub struct Fared {
    /// Sets that a test admits.
    pub admitted: usize,
    /// Sets that only the tightened test admits.
    pub only_tightened: usize,
    /// Sets of which a packet took exactly its flow's basic, its flow's tightened bound.
    pub attained: [usize; 2],
    /// Packets delivered.
    pub packets: usize,
    /// Of the sets that a test admits, those with a returning node; and those of them attained, as above.
    pub loops: usize,
    pub loops_attained: [usize; 2],
}

/// Demand 3 run over tight sets, each for 150 slots: several times every period.
pub fn demand3(rules: Rules, seed: u64, draws: usize) -> Result<Fared, String> {
    demand3_of(rules, sets::tight, 150, seed, draws)
}

/// Demand 3 run over random sets with the bounds of each test that admits.
pub fn demand3_of(
    rules: Rules,
    draw: fn(&mut Rng) -> Set,
    slots: u32,
    seed: u64,
    draws: usize,
) -> Result<Fared, String> {
    let (mut rng, mut fared) = (Rng::new(seed), Fared::default());
    for _ in 0..draws {
        let set = draw(&mut rng);
        let delays = (rules.delays)(&set);
        let verdict = delays.verdict();
        let returns = sets::returns(&set);
        fared.admitted += usize::from(verdict.basic || verdict.tightened);
        fared.loops += usize::from(returns && (verdict.basic || verdict.tightened));
        fared.only_tightened += usize::from(verdict.tightened && !verdict.basic);
        for (test, admits, bounds) in [(0, verdict.basic, delays.basic), (1, verdict.tightened, delays.tightened)] {
            if admits {
                let (packets, attained) = run(rules, &set, &bounds, slots)?;
                fared.packets += packets;
                fared.attained[test] += usize::from(attained);
                fared.loops_attained[test] += usize::from(attained && returns);
            }
        }
    }
    Ok(fared)
}

/// Demand 3 for one set: a run from the fresh state. Answers how many packets were delivered, and whether one of them
/// took exactly its bound.
pub fn run(rules: Rules, set: &Set, bounds: &[u32], slots: u32) -> Result<(usize, bool), String> {
    let ran = run_first((rules.machine)(set), set, &bounds[..set.used().len()], slots)?;
    Ok((ran.packets, ran.attained))
}

/// What a run saw.
pub struct Run {
    /// Packets delivered of the flows with a bound.
    pub packets: usize,
    /// Whether one of them took exactly its bound; and a bit for each flow of which one did so whose bound is above its C:
    /// others held it up.
    pub attained: bool,
    pub held_up: u64,
    /// Packets dropped of the flows without one.
    pub dropped: usize,
}

/// The same for a machine and bounds of the first flows alone: of the others no more is asked than that they send in route
/// order and are reported so.
pub fn run_first(mut machine: Box<dyn Steps>, set: &Set, bounds: &[u32], slots: u32) -> Result<Run, String> {
    let (mut state, mut slot) = (State::FRESH, Slot::default());
    let (mut made, mut ran) = ([0u32; 64], Run { packets: 0, attained: false, held_up: 0, dropped: 0 });
    for t in 0..slots {
        let because = |why: &str| format!("{why} in slot {t} of map {}, {:?}", set.map, set.used());
        machine.step(&mut state, &mut slot);
        apart(set, &slot).map_err(|why| because(&why))?;
        claim(slot.dropped.iter().all(|&k| usize::from(k) >= bounds.len()), || because("a drop"))?;
        ran.dropped += slot.dropped.len();
        for (k, flow) in set.used().iter().enumerate() {
            let (Some(release), bound) = (release(flow, t), bounds.get(k).copied()) else { continue };
            if t == release {
                made[k] = 0;
            }
            let sends: Vec<_> = slot.sends.iter().filter(|sent| usize::from(sent.flow) == k).collect();
            claim(sends.len() <= 1, || because("a flow twice"))?;
            for sent in &sends {
                let (link, attempt) = (made[k] / u32::from(flow.tries), made[k] % u32::from(flow.tries));
                let wanted = (flow.route[link as usize], flow.route[link as usize + 1], attempt as u8);
                claim((sent.from, sent.to, sent.attempt) == wanted, || because("not in route order"))?;
                made[k] += 1;
                claim(bound.is_none_or(|bound| t - release < bound), || because("a send after the bound"))?;
            }
            let done = made[k] == flow.c();
            let late = |bound| !done && t + 1 >= release + bound;
            claim(!bound.is_some_and(late), || because(&format!("flow {k} is late")))?;
            let delivered = slot.delivered.iter().find(|packet| usize::from(packet.flow) == k);
            let delay = (done && !sends.is_empty()).then_some((t - release + 1) as u16);
            claim(delivered.map(|packet| packet.delay) == delay, || because("a wrong report"))?;
            ran.packets += usize::from(delay.is_some() && bound.is_some());
            let attained = delay.is_some() && delay.map(u32::from) == bound;
            ran.attained |= attained;
            ran.held_up |= u64::from(attained && bound > Some(flow.c())) << k;
        }
    }
    Ok(ran)
}

/// The release of a flow's latest packet.
fn release(flow: &Flow, t: u32) -> Option<u32> {
    let age = t.checked_sub(u32::from(flow.start))?;
    Some(t - age % u32::from(flow.period))
}

/// No node twice, no channel twice, no channel that the set lacks, not more than it has.
fn apart(set: &Set, slot: &Slot) -> Found {
    let mut nodes: Vec<u16> = slot.sends.iter().flat_map(|sent| [sent.from, sent.to]).collect();
    let mut channels: Vec<u8> = slot.sends.iter().map(|sent| sent.channel).collect();
    let all = nodes.len();
    nodes.sort_unstable();
    nodes.dedup();
    channels.sort_unstable();
    channels.dedup();
    claim(nodes.len() == all, || "a node twice".into())?;
    claim(channels.len() == slot.sends.len(), || "a channel twice".into())?;
    claim(slot.sends.len() <= set.map.count_ones() as usize, || "too many channels".into())?;
    claim(channels.iter().all(|channel| set.map >> (channel - 11) & 1 == 1), || "a channel the set lacks".into())
}
