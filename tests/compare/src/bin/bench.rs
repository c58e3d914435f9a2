//! One table: the proved planner beside the second one, the same input in the same process, both built for release, by processor time.
//! `bench [RUNS] [WORDS]` goes that often (default 5) through all rows, or those whose name has the words. In a run the two take turns, and a
//! row's figures are medians of the turns; the table has the medians of the runs, and the lowest and the highest ratio of a run. Before
//! anything is measured the answers are compared. Rows are what C calls unless they say otherwise; both sides start from the same text, and
//! a row that is not like with like says so.

use compare::{Ran, Record};
use second::fixed::fixed_verdict_of_text;
use second::host::{all_bounds_of_text, bound_of_text, bytes_of_state, fixed_step_of_text, step_of_bytes, step_of_text, verdict_of_text};
use second::inputs::{ring64, sets, superframes, Rng};
use second::machine::{MachineWith, BY_DEADLINE, BY_NUMBER};
use second::superframe::{superframe_of_text, superframe_size_of_text};
use second::table::lines_of;
use second::write::text_of;
use second::{slip, Machine, Set, Slot, State, Step};
use std::fs::File;
use std::hint::black_box;
use std::path::{Path, PathBuf};
use std::process::{Command, Stdio};

/// Turns of a run, and how long one takes, in nanoseconds.
const TURNS: usize = 25;
const TURN: f64 = 5e5;
/// Slots that a row of single slots goes through, from a slot where every flow has started.
const SLOTS: u32 = 256;
const STARTED: u32 = 70_000;
/// Slots of a run.
const RUN: u32 = 65_536;

/// One side of a row: does the work once and answers a number that both sides must have in common.
type Work<'a> = Box<dyn FnMut() -> u64 + 'a>;

/// A line of the table.
struct Row<'a> {
    name: String,
    clock: fn() -> f64,
    /// How many slots the work is; 1 where it is a call.
    per: u32,
    proved: Work<'a>,
    second: Work<'a>,
    /// A run's time of each and their ratio.
    runs: Vec<[f64; 3]>,
}

impl<'a> Row<'a> {
    fn new(name: impl Into<String>, proved: impl FnMut() -> u64 + 'a, second: impl FnMut() -> u64 + 'a) -> Row<'a> {
        let (proved, second): (Work, Work) = (Box::new(proved), Box::new(second));
        Row { name: name.into(), clock: own, per: 1, proved, second, runs: Vec::new() }
    }

    /// The same where the work is this many slots.
    fn per(mut self, per: u32) -> Row<'a> {
        self.per = per;
        self
    }

    /// Ends the program where the two sides' answers differ.
    fn compare(&mut self) {
        let (proved, second) = ((self.proved)(), (self.second)());
        if proved != second {
            println!("{}: the answers differ: {proved} and {second}", self.name);
            std::process::exit(1);
        }
    }

    /// One run: the two take turns, each first as often as the other.
    fn run(&mut self) {
        let calls = [calls(self.clock, &mut self.proved), calls(self.clock, &mut self.second)];
        let (mut proved, mut second, mut ratio) = (Vec::new(), Vec::new(), Vec::new());
        for turn in 0..TURNS {
            let mut took = [0.0; 2];
            for side in [turn % 2, 1 - turn % 2] {
                let work = if side == 0 { &mut self.proved } else { &mut self.second };
                took[side] = time(self.clock, calls[side], work) / f64::from(self.per);
            }
            proved.push(took[0]);
            second.push(took[1]);
            ratio.push(took[0] / took[1]);
        }
        self.runs.push([middle(proved), middle(second), middle(ratio)]);
    }

    fn print(&self) {
        let column = |i: usize| self.runs.iter().map(|run| run[i]).collect::<Vec<_>>();
        let (lowest, highest) = column(2).iter().fold((f64::INFINITY, 0f64), |(low, high), r| (low.min(*r), high.max(*r)));
        let [proved, second] = [0, 1].map(|i| shown(middle(column(i))));
        println!("| {} | {proved} | {second} | {:.2} | {lowest:.2} to {highest:.2} |", self.name, middle(column(2)));
    }
}

/// The median.
fn middle(mut values: Vec<f64>) -> f64 {
    values.sort_by(f64::total_cmp);
    values[values.len() / 2]
}

/// Nanoseconds with a comma after the thousands, below a hundred with one place.
fn shown(ns: f64) -> String {
    if ns < 100.0 {
        return format!("{ns:.1}");
    }
    let digits = format!("{ns:.0}");
    let groups = digits.as_bytes().rchunks(3).rev().map(String::from_utf8_lossy);
    groups.collect::<Vec<_>>().join(",")
}

/// Nanoseconds of processor time of one call, out of this many.
fn time(clock: fn() -> f64, calls: u32, work: &mut Work) -> f64 {
    let start = clock();
    for _ in 0..calls {
        black_box(work());
    }
    (clock() - start) / f64::from(calls)
}

/// How many calls a turn has.
fn calls(clock: fn() -> f64, work: &mut Work) -> u32 {
    time(clock, 1, work);
    (TURN / time(clock, 1, work).max(10.0)).clamp(1.0, 1e6) as u32
}

/// The C library's clock and resources, declared by hand: seconds and nanoseconds, or microseconds.
#[repr(C)]
#[derive(Clone, Copy, Default)]
struct Time {
    seconds: i64,
    parts: i64,
}

#[repr(C)]
#[derive(Default)]
struct Usage {
    user: Time,
    system: Time,
    rest: [i64; 14],
}

extern "C" {
    fn clock_gettime(clock: i32, time: *mut Time) -> i32;
    fn getrusage(who: i32, usage: *mut Usage) -> i32;
}

/// CLOCK_PROCESS_CPUTIME_ID and RUSAGE_CHILDREN of Linux.
const PROCESS_TIME: i32 = 2;
const CHILDREN: i32 = -1;

/// This process's own processor time.
fn own() -> f64 {
    let mut time = Time::default();
    assert_eq!(unsafe { clock_gettime(PROCESS_TIME, &mut time) }, 0);
    time.seconds as f64 * 1e9 + time.parts as f64
}

/// That of the programs it has started and waited for, loader and all.
fn started() -> f64 {
    let mut usage = Usage::default();
    assert_eq!(unsafe { getrusage(CHILDREN, &mut usage) }, 0);
    let ns = |time: Time| time.seconds as f64 * 1e9 + time.parts as f64 * 1e3;
    ns(usage.user) + ns(usage.system)
}

fn main() {
    let runs: usize = std::env::args().nth(1).and_then(|n| n.parse().ok()).unwrap_or(5);
    let root = Path::new(env!("CARGO_MANIFEST_DIR")).join("../..");
    let nursery = std::fs::read(root.join("examples/nursery.set")).expect("the nursery is there");
    let inputs = Inputs::new(nursery);
    std::fs::write(root.join("target/f3.set"), &inputs.f3.text).expect("F3 is written");
    let mut rows = Vec::new();
    verdicts(&mut rows, &inputs);
    refused(&mut rows, &inputs);
    bounds(&mut rows, &inputs);
    slots(&mut rows, &inputs);
    ranked(&mut rows, &inputs);
    loading(&mut rows, &inputs);
    programs(&mut rows, &root);
    records(&mut rows, &inputs);
    let words = std::env::args().nth(2).unwrap_or_default();
    rows.retain(|row| row.name.contains(&words));
    rows.iter_mut().for_each(Row::compare);
    for _ in 0..runs {
        rows.iter_mut().for_each(Row::run);
    }
    println!("| what | proved, ns | second, ns | ratio | in {runs} runs |\n|---|---|---|---|---|");
    rows.iter().for_each(Row::print);
}

/// A set with its text.
struct Input {
    name: String,
    set: Set,
    text: Vec<u8>,
}

impl Input {
    fn new(name: impl Into<String>, set: Set) -> Input {
        Input { name: name.into(), set, text: text_of(&set) }
    }

    /// The state at a slot where every flow has started.
    fn state(&self) -> State {
        Record::new(&self.set).run(STARTED).last
    }
}

/// The sets that are measured.
struct Inputs {
    one: Input,
    eight: Input,
    nursery: Input,
    alike: Input,
    full: Input,
    roomy: Input,
    roomy_full: Input,
    loops: Input,
    ring: Input,
    spread: Input,
    busy: Input,
    longest: Input,
    many: Input,
    f3: Input,
}

impl Inputs {
    fn new(nursery: Vec<u8>) -> Inputs {
        let few = |count| Set { count, ..sets::full(&mut Rng::new(1)) };
        let rounds = shown(second::verdict(&ring64()).rounds.into());
        Inputs {
            one: Input::new("1 flow of 17 nodes", few(1)),
            eight: Input::new("8 flows of 17 nodes", few(8)),
            nursery: Input::new("the nursery, 14 flows", second::read(&nursery).set),
            alike: Input::new("9 flows of 17 nodes alike modulo 256", sets::alike(9)),
            full: Input::new("64 flows of 17 nodes", few(64)),
            roomy: Input::new("8 flows of 17 nodes, deadlines at their periods", sets::roomy(8)),
            roomy_full: Input::new("64 flows of 17 nodes, deadlines at their periods", sets::roomy(64)),
            loops: Input::new("64 loops of 17 nodes, out and back over the same", sets::loops()),
            ring: Input::new(format!("the ring, 64 flows, {rounds} rounds"), ring64()),
            spread: Input::new("64 flows of one link, 6 % of the slots busy", sets::spread(1024, 16)),
            busy: Input::new("64 flows, 16 sends a slot", sets::busy()),
            longest: Input::new("8,138 bytes, the longest text", sets::longest()),
            many: Input::new("64 flows, 65,520 slots, 216,387 rows", superframes::many()),
            f3: Input::new("F3, 16 flows, 65,535 slots, 983,026 rows", superframes::f3()),
        }
    }
}

fn verdicts<'a>(rows: &mut Vec<Row<'a>>, inputs: &'a Inputs) {
    let flows = [&inputs.one, &inputs.eight, &inputs.nursery, &inputs.alike, &inputs.full];
    for input in flows.into_iter().chain([&inputs.roomy, &inputs.roomy_full, &inputs.loops, &inputs.ring]) {
        let text = &input.text;
        rows.push(Row::new(
            format!("verdict: {}", input.name),
            move || compare::text_verdict(black_box(text)).rounds.into(),
            move || verdict_of_text(black_box(text)).rounds.into(),
        ));
    }
}

/// Texts that are refused for their very last field: all of the text is read, and its last line once more.
fn refused(rows: &mut Vec<Row>, inputs: &Inputs) {
    let longest = &inputs.longest.text;
    let last = longest.iter().rposition(|&byte| byte == b'\t').expect("a tab");
    let texts = [
        ("the longest text with `x` for its last node", [&longest[..=last], b"x\n"].concat()),
        ("a line of 1 MB whose last field is bad", format!("set\t1\nflow{}\tx\n", "\t65535".repeat(175_000)).into_bytes()),
    ];
    for (name, text) in texts {
        let again = text.clone();
        rows.push(Row::new(
            format!("verdict, refused: {name}"),
            move || compare::text_verdict(black_box(&text)).fault.field as u64,
            move || verdict_of_text(black_box(&again)).refusal.field as u64,
        ));
    }
}

fn bounds<'a>(rows: &mut Vec<Row<'a>>, inputs: &'a Inputs) {
    for input in [&inputs.nursery, &inputs.full] {
        let (text, last) = (&input.text, u32::from(input.set.count) - 1);
        rows.push(Row::new(
            format!("one flow's bounds: {}", input.name),
            move || compare::text_bounds(black_box(text), last).tightened.into(),
            move || bound_of_text(black_box(text), last).tightened.into(),
        ));
    }
    let (text, count) = (&inputs.full.text, u32::from(inputs.full.set.count));
    let once = move || {
        let mut table = [0; 256];
        let (_, numbers) = all_bounds_of_text(black_box(text), &mut table);
        table[..numbers].chunks_exact(4).map(|row| u64::from(row[2])).sum()
    };
    rows.push(Row::new(
        "all bounds in one call: 64 flows of 17 nodes",
        move || {
            let mut table = [0; 256];
            let numbers = compare::text_all_bounds(black_box(text), &mut table).length;
            table[..numbers].chunks_exact(4).map(|row| u64::from(row[2])).sum()
        },
        once,
    ));
    let each = move || (0..count).map(|k| u64::from(compare::text_bounds(black_box(text), k).tightened)).sum();
    rows.push(Row::new("the same by 64 calls; not like with like: the second planner by one", each, once));
}

/// One slot after the other, each from the bytes that the last left.
fn slots<'a>(rows: &mut Vec<Row<'a>>, inputs: &'a Inputs) {
    for input in [&inputs.nursery, &inputs.spread, &inputs.full, &inputs.busy] {
        let text = &input.text;
        let second = walk(input, move |state, lines| step_of_text(black_box(text), state, lines).bytes);
        rows.push(Row::new(format!("one slot: {}", input.name), walk_proved(input), second).per(SLOTS));
    }
    let input = &inputs.nursery;
    let Ok(mut machine) = Machine::new(&input.set) else { return };
    let second = walk(input, move |state, lines| step_of_bytes(&mut machine, state, lines).bytes);
    let name = "one slot: the nursery; not like with like: the second planner's machine was prepared once, it reads no text";
    rows.push(Row::new(name, walk_proved(input), second).per(SLOTS));
}

/// Fixed priority: the verdict of sets whose verdicts stand above, some of them judged to the last flow; and slots of the sets whose slots are
/// the same under both orders.
fn ranked<'a>(rows: &mut Vec<Row<'a>>, inputs: &'a Inputs) {
    for input in [&inputs.one, &inputs.eight, &inputs.full, &inputs.roomy, &inputs.roomy_full] {
        let text = &input.text;
        rows.push(Row::new(
            format!("verdict by fixed priority: {}", input.name),
            move || compare::text_fixed_verdict(black_box(text)).judged.into(),
            move || fixed_verdict_of_text(black_box(text)).judged.into(),
        ));
    }
    for input in [&inputs.spread, &inputs.busy] {
        let text = &input.text;
        rows.push(Row::new(
            format!("one slot by fixed priority: {}", input.name),
            walk(input, move |state, lines| compare::text_fixed_slot(black_box(text), state, lines).length),
            walk(input, move |state, lines| fixed_step_of_text(black_box(text), state, lines).bytes),
        ).per(SLOTS));
    }
}

/// The superframe's size and its table; and the lines of the longest one, written and read.
fn loading<'a>(rows: &mut Vec<Row<'a>>, inputs: &'a Inputs) {
    for input in [&inputs.many, &inputs.f3] {
        let text = &input.text;
        let numbers = superframe_size_of_text(text).numbers;
        let (mut ours, mut theirs) = (vec![0; numbers], vec![0; numbers]);
        rows.push(Row::new(
            format!("the superframe's size: {}", input.name),
            move || compare::text_superframe_size(black_box(text)).numbers as u64,
            move || superframe_size_of_text(black_box(text)).numbers as u64,
        ));
        rows.push(Row::new(
            format!("the superframe: {}", input.name),
            move || compare::text_superframe(black_box(text), &mut ours).numbers as u64 + mixed(&ours),
            move || superframe_of_text(black_box(text), &mut theirs).numbers as u64 + mixed(&theirs),
        ));
    }
    lines(rows, &inputs.f3);
}

/// A few numbers of a table: both sides must have them in common.
fn mixed(table: &[u16]) -> u64 {
    table.iter().step_by(9_973).map(|&number| u64::from(number)).sum()
}

/// A table's lines, written and read.
fn lines<'a>(rows: &mut Vec<Row<'a>>, input: &'a Input) {
    let mut table = vec![0; superframe_size_of_text(&input.text).numbers];
    superframe_of_text(&input.text, &mut table);
    let text = lines_of(&table);
    let (mut ours, mut theirs) = (vec![0; text.len()], vec![0; text.len()]);
    let (mut read, mut read_too) = (vec![0; table.len()], vec![0; table.len()]);
    let (again, text_again) = (table.clone(), text.clone());
    rows.push(Row::new(
        format!("writing a table's lines: {}", input.name),
        move || compare::table_write(black_box(&table), &mut ours).length as u64 + u64::from(ours[ours.len() / 2]),
        move || second::write_table(black_box(&again), &mut theirs).bytes as u64 + u64::from(theirs[theirs.len() / 2]),
    ));
    rows.push(Row::new(
        format!("reading a table's lines: {}", input.name),
        move || compare::table_read(black_box(&text), &mut read).length as u64 + mixed(&read),
        move || second::read_table(black_box(&text_again), &mut read_too).1 as u64 + mixed(&read_too),
    ));
}

/// Slots from a state where every flow has started: how many bytes of lines they have.
fn walk<'a>(input: &'a Input, mut slot: impl FnMut(&mut [u8], &mut [u8]) -> usize + 'a) -> impl FnMut() -> u64 + 'a {
    let first = bytes_of_state(&input.state());
    move || {
        let (mut state, mut lines) = (first, [0; 576]);
        (0..SLOTS).map(|_| slot(&mut state, &mut lines) as u64).sum()
    }
}

fn walk_proved(input: &Input) -> impl FnMut() -> u64 + '_ {
    walk(input, |state, lines| compare::text_slot(black_box(&input.text), state, lines).length)
}

/// Whole processes, a file in and nothing out, both linked with shared libraries.
fn programs<'a>(rows: &mut Vec<Row<'a>>, root: &Path) {
    let start = |program: PathBuf, input: PathBuf| {
        move || {
            let input = File::open(&input).expect("the input is there");
            let status = Command::new(&program).stdin(input).stdout(Stdio::null()).status().expect("the program is there");
            u64::from(status.success())
        }
    };
    let runs = [
        ("plan", "the program, a whole process: the nursery", "examples/nursery.set"),
        ("plan", "the program, a whole process: no input, which is refused: its start", "/dev/null"),
        ("superframe", "the program superframe, a whole process: the nursery with every start 0", "examples/nursery_starts_0.set"),
        ("superframe", "the program superframe, a whole process: F3, some 12 MB of lines", "target/f3.set"),
        ("fixed", "the program fixed, a whole process: the nursery", "examples/nursery.set"),
    ];
    for (program, name, input) in runs {
        let [proved, second] = ["target/bin", "tests/second/target/release"].map(|folder| root.join(folder).join(program));
        let input = root.join(input);
        let row = Row::new(name, start(proved, input.clone()), start(second, input));
        rows.push(Row { clock: started, ..row });
    }
}

/// What C cannot call by itself.
fn records<'a>(rows: &mut Vec<Row<'a>>, inputs: &'a Inputs) {
    let Input { name, set, text } = &inputs.longest;
    let record = Record::new(set);
    let (mut ours, mut theirs) = (vec![0u8; 8200], vec![0u8; 8200]);
    rows.push(Row::new(
        format!("reading {name}, into a record"),
        move || compare::read_only(black_box(text)).into(),
        move || second::read(black_box(text)).refusal.number.into(),
    ));
    rows.push(Row::new(
        "writing it from a record",
        move || record.write(black_box(&mut ours)).length as u64,
        move || second::write(black_box(set), black_box(&mut theirs)).bytes as u64,
    ));
    for input in [&inputs.spread, &inputs.busy] {
        step(rows, input, DEADLINE);
        run(rows, input, DEADLINE);
    }
    // all packets of `busy` have one deadline and `spread` has one packet at a time, so their slots are the same under both orders
    for input in [&inputs.spread, &inputs.busy] {
        step(rows, input, NUMBER);
        run(rows, input, NUMBER);
    }
}

/// What both planners call by one order of priority.
struct Order<const ORDER: u8> {
    /// What a row's name says of it.
    by: &'static str,
    step: fn(&Record, &State) -> (State, u16),
    second_step: fn(&Set, &State) -> Step,
    run: fn(&Record, u32) -> Ran,
}

const DEADLINE: Order<BY_DEADLINE> = Order { by: "", step: Record::step_only, second_step: second::step, run: Record::run };
const NUMBER: Order<BY_NUMBER> =
    Order { by: " by fixed priority", step: Record::fixed_step_only, second_step: second::fixed_step, run: Record::fixed_run };

/// A step of a record, which both check; then beside a machine that was prepared once.
fn step<'a, const ORDER: u8>(rows: &mut Vec<Row<'a>>, input: &'a Input, order: Order<ORDER>) {
    let (set, state, by) = (&input.set, input.state(), order.by);
    let proved = move || {
        let record = Record::new(set);
        steps(state, move |state| {
            let (next, sends) = (order.step)(black_box(&record), state);
            *state = next;
            sends.into()
        })
    };
    let second = steps(state, move |state| {
        let step = (order.second_step)(black_box(set), state);
        *state = step.state;
        step.slot.sends.len() as u64
    });
    rows.push(Row::new(format!("a step of a record{by}, checked by both: {}", input.name), proved(), second).per(SLOTS));
    let (Ok(mut machine), mut slot) = (MachineWith::<{ slip::NONE }, ORDER>::new(set), Slot::new()) else { return };
    let prepared = steps(state, move |state| {
        machine.step(state, &mut slot);
        slot.sends.len() as u64
    });
    let name = format!("a step of a record{by}: {}; not like with like: the second planner's machine was prepared once", input.name);
    rows.push(Row::new(name, proved(), prepared).per(SLOTS));
}

/// Steps from a state, each from the one that the last left: how many sends they have.
fn steps<'a>(first: State, mut step: impl FnMut(&mut State) -> u64 + 'a) -> impl FnMut() -> u64 + 'a {
    move || {
        let mut state = first;
        (0..SLOTS).map(|_| step(&mut state)).sum()
    }
}

/// A run from the fresh state beside as many steps of a machine that was prepared once.
fn run<'a, const ORDER: u8>(rows: &mut Vec<Row<'a>>, input: &'a Input, order: Order<ORDER>) {
    let (record, mut slot) = (Record::new(&input.set), Slot::new());
    let Ok(mut machine) = MachineWith::<{ slip::NONE }, ORDER>::new(&input.set) else { return };
    let second = move || {
        let (mut state, mut delivered) = (State::FRESH, 0);
        for _ in 0..RUN {
            machine.step(&mut state, &mut slot);
            delivered += slot.delivered.len() as u64;
        }
        delivered
    };
    let name = format!("a slot of a run{}: {}; not like with like: the proved one lists no sends", order.by, input.name);
    rows.push(Row::new(name, move || (order.run)(black_box(&record), RUN).delivered, second).per(RUN));
}
