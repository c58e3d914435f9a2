//! The proved planner as Rust sees it: the exported functions, declared by hand, and safe functions over them.
//! Nothing checks these declarations against the Rattle source but the comparison itself.

use second::{Flow, Refusal, Set, State};

/// A refusal's number, line and field, all 0 where nothing is refused.
#[repr(C)]
#[derive(Clone, Copy, Debug, PartialEq, Eq)]
pub struct Fault {
    pub refusal: u32,
    pub line: usize,
    pub field: usize,
}

impl From<Refusal> for Fault {
    fn from(refusal: Refusal) -> Fault {
        Fault { refusal: refusal.number.into(), line: refusal.line, field: refusal.field }
    }
}

/// What the two functions over a table's lines answer, bytes or numbers: lines of a table have no field.
#[repr(C)]
#[derive(Clone, Copy, Debug, PartialEq, Eq)]
pub struct Lined {
    pub refusal: u32,
    pub line: usize,
    pub length: usize,
}

impl Lined {
    /// Its refusal as one that names no field.
    pub fn fault(&self) -> Fault {
        Fault { refusal: self.refusal, line: self.line, field: 0 }
    }
}

#[repr(C)]
#[derive(Clone, Copy)]
struct RawFlow {
    period: u16,
    deadline: u16,
    start: u16,
    tries: u16,
    nodes: u16,
    route: [u16; 17],
}

#[repr(C)]
#[derive(Clone, Copy)]
struct RawSet {
    map: u16,
    count: u16,
    flows: [RawFlow; 64],
}

#[repr(C)]
#[derive(Clone, Copy)]
struct RawState {
    slot: u32,
    sent: [u8; 64],
}

#[repr(C)]
struct RawReading {
    fault: Fault,
    set: RawSet,
}

/// How many bytes the writer wrote.
#[repr(C)]
#[derive(Clone, Copy, Debug, PartialEq, Eq)]
pub struct Written {
    pub fault: Fault,
    pub length: usize,
}

/// Both verdicts; 1 admits.
#[repr(C)]
#[derive(Clone, Copy, Debug, PartialEq, Eq)]
pub struct Verdict {
    pub fault: Fault,
    pub basic: u32,
    pub tightened: u32,
    pub rounds: u32,
}

/// One flow's bounds.
#[repr(C)]
#[derive(Clone, Copy, Debug, PartialEq, Eq)]
pub struct Bounds {
    pub fault: Fault,
    pub work: u32,
    pub basic: u32,
    pub tightened: u32,
    pub deadline: u32,
    pub margin: i32,
}

/// The verdict for fixed priority; 1 admits.
#[repr(C)]
#[derive(Clone, Copy, Debug, PartialEq, Eq)]
pub struct FixedVerdict {
    pub fault: Fault,
    pub admitted: u32,
    pub judged: u32,
}

/// One flow's bound by fixed priority; 1 is judged.
#[repr(C)]
#[derive(Clone, Copy, Debug, PartialEq, Eq)]
pub struct FixedBounds {
    pub fault: Fault,
    pub work: u32,
    pub bound: u32,
    pub deadline: u32,
    pub judged: u32,
}

/// How many slots and how many numbers a superframe has.
#[repr(C)]
#[derive(Clone, Copy, Debug, PartialEq, Eq)]
pub struct Superframe {
    pub fault: Fault,
    pub hyper: u32,
    pub numbers: usize,
}

/// One transmission.
#[repr(C)]
#[derive(Clone, Copy, Debug, PartialEq, Eq)]
pub struct Send {
    pub slot: u32,
    pub flow: u16,
    pub from: u16,
    pub to: u16,
    pub attempt: u16,
    pub offset: u16,
    pub channel: u16,
}

/// One delivered packet.
#[repr(C)]
#[derive(Clone, Copy, Debug, PartialEq, Eq)]
pub struct Delivery {
    pub flow: u16,
    pub delay: u16,
}

#[repr(C)]
struct RawStepped {
    fault: Fault,
    next: RawState,
    sends: u16,
    sent: [Send; 16],
    deliveries: u16,
    delivered: [Delivery; 16],
    drops: u16,
    dropped: [u16; 64],
}

#[repr(C)]
struct RawRan {
    fault: Fault,
    last: RawState,
    delivered: u64,
    dropped: u64,
}

extern "C" {
    fn probe_record_fault(s: RawSet) -> Fault;
    fn probe_read(text: *const u8, length: usize) -> RawReading;
    fn probe_write(s: RawSet, out: *mut u8, length: usize) -> Written;
    fn probe_verdict(s: RawSet) -> Verdict;
    fn probe_bounds(s: RawSet, flow: u16) -> Bounds;
    fn probe_step(s: RawSet, st: RawState) -> RawStepped;
    fn probe_run(s: RawSet, budget: u32) -> RawRan;
    fn probe_plan(input: *const u8, input_length: usize, out: *mut u8, length: usize) -> Written;
    fn probe_fixed_verdict(s: RawSet) -> FixedVerdict;
    fn probe_fixed_bounds(s: RawSet, flow: u16) -> FixedBounds;
    fn probe_fixed_step(s: RawSet, st: RawState) -> RawStepped;
    fn probe_fixed_run(s: RawSet, budget: u32) -> RawRan;
    fn probe_fixed(input: *const u8, input_length: usize, out: *mut u8, length: usize) -> Written;
    fn probe_superframe_size(s: RawSet) -> Superframe;
    fn probe_superframe(s: RawSet, table: *mut u16, room: usize) -> Superframe;
    // include/rembasuk.h: its answers over a set's text begin with the refusal, the line and the field, as a fault does.
    fn rembasuk_verdict(text: *const u8, length: usize) -> Verdict;
    fn rembasuk_bounds(text: *const u8, length: usize, flow: u32) -> Bounds;
    fn rembasuk_all_bounds(text: *const u8, length: usize, table: *mut u32, room: usize) -> Written;
    fn rembasuk_slot(text: *const u8, length: usize, state: *mut u8, state_length: usize, lines: *mut u8, lines_length: usize) -> Written;
    fn rembasuk_fixed_verdict(text: *const u8, length: usize) -> FixedVerdict;
    fn rembasuk_fixed_bounds(text: *const u8, length: usize, flow: u32) -> FixedBounds;
    fn rembasuk_fixed_slot(text: *const u8, length: usize, state: *mut u8, state_length: usize, lines: *mut u8, lines_length: usize) -> Written;
    fn rembasuk_superframe_size(text: *const u8, length: usize) -> Superframe;
    fn rembasuk_superframe(text: *const u8, length: usize, table: *mut u16, room: usize) -> Superframe;
    fn rembasuk_table_write(table: *const u16, numbers: usize, lines: *mut u8, room: usize) -> Lined;
    fn rembasuk_table_read(lines: *const u8, length: usize, table: *mut u16, room: usize) -> Lined;
    fn rembasuk_channel(map: u32, slot: u32, offset: u32) -> u32;
}

fn raw_flow(f: &Flow) -> RawFlow {
    RawFlow { period: f.period, deadline: f.deadline, start: f.start, tries: f.tries, nodes: f.nodes, route: f.route }
}

/// A set as the proved planner takes it: made once, so that a measured call pays for no conversion.
pub struct Record(RawSet);

impl Record {
    /// The record of a set, with every entry, used or not.
    pub fn new(s: &Set) -> Record {
        Record(RawSet { map: s.map, count: s.count, flows: std::array::from_fn(|k| raw_flow(&s.flows[k])) })
    }

    /// The record check.
    pub fn fault(&self) -> Fault {
        unsafe { probe_record_fault(self.0) }
    }

    /// The writer.
    pub fn write(&self, out: &mut [u8]) -> Written {
        unsafe { probe_write(self.0, out.as_mut_ptr(), out.len()) }
    }

    /// Both verdicts.
    pub fn verdict(&self) -> Verdict {
        unsafe { probe_verdict(self.0) }
    }

    /// One flow's bounds.
    pub fn bounds(&self, flow: u16) -> Bounds {
        unsafe { probe_bounds(self.0, flow) }
    }

    /// One step from a state.
    pub fn step(&self, st: &State) -> Stepped {
        stepped(unsafe { probe_step(self.0, raw_state(st)) })
    }

    /// A step alone, for measuring: the next state and how many sends, its lists not taken apart.
    pub fn step_only(&self, st: &State) -> (State, u16) {
        let a = unsafe { probe_step(self.0, raw_state(st)) };
        (state(&a.next), a.sends)
    }

    /// The verdict for fixed priority.
    pub fn fixed_verdict(&self) -> FixedVerdict {
        unsafe { probe_fixed_verdict(self.0) }
    }

    /// One flow's bound by fixed priority.
    pub fn fixed_bounds(&self, flow: u16) -> FixedBounds {
        unsafe { probe_fixed_bounds(self.0, flow) }
    }

    /// One step by fixed priority.
    pub fn fixed_step(&self, st: &State) -> Stepped {
        stepped(unsafe { probe_fixed_step(self.0, raw_state(st)) })
    }

    /// Such a step alone.
    pub fn fixed_step_only(&self, st: &State) -> (State, u16) {
        let a = unsafe { probe_fixed_step(self.0, raw_state(st)) };
        (state(&a.next), a.sends)
    }

    /// A run by fixed priority from the fresh state.
    pub fn fixed_run(&self, budget: u32) -> Ran {
        ran(unsafe { probe_fixed_run(self.0, budget) })
    }

    /// How long the superframe's table is.
    pub fn superframe_size(&self) -> Superframe {
        unsafe { probe_superframe_size(self.0) }
    }

    /// The superframe's table, at the start of a lent one.
    pub fn superframe(&self, table: &mut [u16]) -> Superframe {
        unsafe { probe_superframe(self.0, table.as_mut_ptr(), table.len()) }
    }

    /// A run from the fresh state.
    pub fn run(&self, budget: u32) -> Ran {
        ran(unsafe { probe_run(self.0, budget) })
    }
}

fn state(st: &RawState) -> State {
    State { slot: st.slot, sent: st.sent }
}

fn raw_state(st: &State) -> RawState {
    RawState { slot: st.slot, sent: st.sent }
}

fn stepped(a: RawStepped) -> Stepped {
    Stepped {
        fault: a.fault,
        next: state(&a.next),
        sends: a.sent[..a.sends.into()].to_vec(),
        delivered: a.delivered[..a.deliveries.into()].to_vec(),
        dropped: a.dropped[..a.drops.into()].to_vec(),
        blank: a.sent[a.sends.into()..].iter().all(|x| x.slot == 0 && x.channel == 0 && x.from == 0 && x.to == 0)
            && a.delivered[a.deliveries.into()..].iter().all(|x| x.flow == 0 && x.delay == 0)
            && a.dropped[a.drops.into()..].iter().all(|x| *x == 0),
    }
}

fn ran(a: RawRan) -> Ran {
    Ran { fault: a.fault, last: state(&a.last), delivered: a.delivered, dropped: a.dropped }
}

/// A step's answer, its arrays cut to their counts.
#[derive(Debug, PartialEq)]
pub struct Stepped {
    pub fault: Fault,
    pub next: State,
    pub sends: Vec<Send>,
    pub delivered: Vec<Delivery>,
    pub dropped: Vec<u16>,
    /// Whether every entry beyond a count is blank.
    pub blank: bool,
}

/// A run's answer.
#[derive(Debug, PartialEq)]
pub struct Ran {
    pub fault: Fault,
    pub last: State,
    pub delivered: u64,
    pub dropped: u64,
}

/// The reader's answer.
pub fn read(text: &[u8]) -> (Fault, Set) {
    let r = unsafe { probe_read(text.as_ptr(), text.len()) };
    let flow = |f: &RawFlow| Flow {
        period: f.period,
        deadline: f.deadline,
        start: f.start,
        tries: f.tries,
        nodes: f.nodes,
        route: f.route,
    };
    let flows = std::array::from_fn(|k| flow(&r.set.flows[k]));
    (r.fault, Set { map: r.set.map, count: r.set.count, flows })
}

/// The reader alone, for measuring: its answer is not taken apart.
pub fn read_only(text: &[u8]) -> u32 {
    unsafe { probe_read(text.as_ptr(), text.len()) }.fault.refusal
}

/// The plan program's text, at the start of a buffer.
pub fn plan(input: &[u8], out: &mut [u8]) -> Written {
    unsafe { probe_plan(input.as_ptr(), input.len(), out.as_mut_ptr(), out.len()) }
}

/// The text of the program `fixed`, at the start of a buffer.
pub fn fixed(input: &[u8], out: &mut [u8]) -> Written {
    unsafe { probe_fixed(input.as_ptr(), input.len(), out.as_mut_ptr(), out.len()) }
}

/// What C is told of a text: both verdicts.
pub fn text_verdict(text: &[u8]) -> Verdict {
    unsafe { rembasuk_verdict(text.as_ptr(), text.len()) }
}

/// What C is told of a text: one flow's bounds.
pub fn text_bounds(text: &[u8], flow: u32) -> Bounds {
    unsafe { rembasuk_bounds(text.as_ptr(), text.len(), flow) }
}

/// What C is told of a text: C, basic bound, tightened bound and deadline of every flow, in a table of 32-bit numbers.
pub fn text_all_bounds(text: &[u8], table: &mut [u32]) -> Written {
    unsafe { rembasuk_all_bounds(text.as_ptr(), text.len(), table.as_mut_ptr(), table.len()) }
}

/// C's step over a text: the next state and the slot's lines.
pub fn text_slot(text: &[u8], state: &mut [u8], lines: &mut [u8]) -> Written {
    unsafe { rembasuk_slot(text.as_ptr(), text.len(), state.as_mut_ptr(), state.len(), lines.as_mut_ptr(), lines.len()) }
}

/// What C is told of a text: the verdict for fixed priority.
pub fn text_fixed_verdict(text: &[u8]) -> FixedVerdict {
    unsafe { rembasuk_fixed_verdict(text.as_ptr(), text.len()) }
}

/// What C is told of a text: one flow's bound by fixed priority.
pub fn text_fixed_bounds(text: &[u8], flow: u32) -> FixedBounds {
    unsafe { rembasuk_fixed_bounds(text.as_ptr(), text.len(), flow) }
}

/// C's step by fixed priority over a text.
pub fn text_fixed_slot(text: &[u8], state: &mut [u8], lines: &mut [u8]) -> Written {
    unsafe { rembasuk_fixed_slot(text.as_ptr(), text.len(), state.as_mut_ptr(), state.len(), lines.as_mut_ptr(), lines.len()) }
}

/// What C is told of a text: how long its superframe's table is.
pub fn text_superframe_size(text: &[u8]) -> Superframe {
    unsafe { rembasuk_superframe_size(text.as_ptr(), text.len()) }
}

/// What C is told of a text: its superframe's table, at the start of a lent one.
pub fn text_superframe(text: &[u8], table: &mut [u16]) -> Superframe {
    unsafe { rembasuk_superframe(text.as_ptr(), text.len(), table.as_mut_ptr(), table.len()) }
}

/// A table's lines, at the start of a buffer.
pub fn table_write(table: &[u16], lines: &mut [u8]) -> Lined {
    unsafe { rembasuk_table_write(table.as_ptr(), table.len(), lines.as_mut_ptr(), lines.len()) }
}

/// The table of lines, at the start of a lent one; the length counts numbers.
pub fn table_read(lines: &[u8], table: &mut [u16]) -> Lined {
    unsafe { rembasuk_table_read(lines.as_ptr(), lines.len(), table.as_mut_ptr(), table.len()) }
}

/// The radio channel of an offset in a slot.
pub fn channel(map: u32, slot: u32, offset: u32) -> u32 {
    unsafe { rembasuk_channel(map, slot, offset) }
}
