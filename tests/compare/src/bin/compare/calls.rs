//! What a user holds: the functions that C calls and the programs, over good and damaged texts, short and exact buffers, good and bad
//! states. On a refusal neither buffer changes; otherwise the bytes after what was written stay.

use crate::order::{Order, DEADLINE, NUMBER};
use crate::{hold_bounds, hold_verdict, Tally};
use second::host::{bound_of_text, bytes_of_state, verdict_of_text};
use second::inputs::{records, sets, Rng};
use second::plan::MOST_BYTES;
use second::write::text_of;
use second::{Refusal, Set, State};

/// What stands in a buffer before a call.
const BEFORE: u8 = 0x5a;

/// A text with the set that is printed where the planners differ.
struct Text<'a> {
    bytes: &'a [u8],
    set: Set,
}

impl Text<'_> {
    fn new(bytes: &[u8]) -> Text<'_> {
        Text { bytes, set: second::read(bytes).set }
    }

    fn told(&self) -> String {
        String::from_utf8_lossy(self.bytes).into()
    }
}

/// Every call of document 01 over one text.
pub fn over_text(tally: &mut Tally, rng: &mut Rng, bytes: &[u8]) {
    let text = Text::new(bytes);
    let other = verdict_of_text(bytes);
    tally.saw(&text.set, other.refusal);
    count(tally, other.refusal);
    hold_verdict(tally, &text.set, compare::text_verdict(bytes), other);
    for flow in [0, rng.below(66) as u32, rng.bits() as u32, 65_536 + rng.below(64) as u32] {
        let other = bound_of_text(bytes, flow);
        count(tally, other.refusal);
        hold_bounds(tally, &text.set, compare::text_bounds(bytes, flow), other);
    }
    all_bounds(tally, rng, &text);
    slot_and_program(tally, &DEADLINE, rng, bytes);
}

/// A slot from any state, and what the program prints, by one of the orders.
pub fn slot_and_program(tally: &mut Tally, order: &Order, rng: &mut Rng, bytes: &[u8]) {
    let text = Text::new(bytes);
    let state = records::state_bytes(rng, &text.set);
    one_slot(tally, order, rng, &text, &state);
    program(tally, order, rng, &text);
}

/// The table of all bounds: exact, one number short, longer, or none.
fn all_bounds(tally: &mut Tally, rng: &mut Rng, text: &Text) {
    let before = vec![u32::from(BEFORE); room(rng, 4 * usize::from(text.set.count))];
    let (mut ours, mut theirs) = (before.clone(), before);
    let a = compare::text_all_bounds(text.bytes, &mut ours);
    let (refusal, numbers) = second::host::all_bounds_of_text(text.bytes, &mut theirs);
    count(tally, refusal);
    tally.fault("the refusal of all bounds", &text.set, a.fault, refusal);
    tally.hold("all bounds", &text.set, a.length == numbers && ours == theirs, || format!("{a:?}, {numbers}, {}", text.told()));
}

/// Slots of one text one after the other, from the fresh state.
pub fn walk(tally: &mut Tally, rng: &mut Rng) {
    let set = sets::any(rng);
    tally.saw(&set, Refusal::NONE);
    walk_over(tally, &DEADLINE, rng, &text_of(&set), 20);
}

/// Slots of this text by one of the orders, this many; one that finds no room for its lines is tried again.
pub fn walk_over(tally: &mut Tally, order: &Order, rng: &mut Rng, bytes: &[u8], slots: u32) {
    let text = Text::new(bytes);
    let mut state = bytes_of_state(&State::FRESH).to_vec();
    for _ in 0..slots {
        state = one_slot(tally, order, rng, &text, &state);
    }
}

/// Every refusal of a state, and the longest input that is read with one byte more, by both orders.
pub fn named(tally: &mut Tally) {
    named_by(tally, &DEADLINE);
    named_by(tally, &NUMBER);
}

fn named_by(tally: &mut Tally, order: &Order) {
    let mut rng = Rng::new(tally.seed);
    for length in [MOST_BYTES, MOST_BYTES + 1] {
        // the room is drawn: once might be once too short to show the difference
        for _ in 0..16 {
            program(tally, order, &mut rng, &Text::new(&vec![b'x'; length]));
        }
    }
    let text = Text::new(b"set\t1\nflow\t10\t10\t0\t2\t1\t2\n");
    for slot in [0, 3_999_999_999, 4_000_000_000, 4_000_000_001] {
        let state = bytes_of_state(&State { slot, ..State::FRESH });
        for length in [0, 67, 68, 69] {
            let mut bytes = state.to_vec();
            bytes.resize(length, 0);
            for _ in 0..4 {
                one_slot(tally, order, &mut rng, &text, &bytes);
            }
        }
    }
}

pub fn count(tally: &mut Tally, refusal: Refusal) {
    tally.called[usize::from(refusal.number)] += 1;
}

/// A buffer's length: that of the text to be written, one less, a few more, none, or plenty.
fn room(rng: &mut Rng, length: usize) -> usize {
    rng.pick(&[length, length.saturating_sub(1), length + 3, 0, length + 500])
}

/// One slot from a state's bytes, and those that it left.
fn one_slot(tally: &mut Tally, order: &Order, rng: &mut Rng, text: &Text, state: &[u8]) -> Vec<u8> {
    let length = (order.second_slot)(text.bytes, &mut state.to_vec(), &mut [0; 2000]).bytes;
    let before = vec![BEFORE; room(rng, length)];
    let (mut our_state, mut our_lines) = (state.to_vec(), before.clone());
    let (mut their_state, mut their_lines) = (state.to_vec(), before.clone());
    let a = (order.slot)(text.bytes, &mut our_state, &mut our_lines);
    let b = (order.second_slot)(text.bytes, &mut their_state, &mut their_lines);
    (order.count)(tally, b.refusal);
    tally.slots += 1;
    let told = || format!("{}, {a:?}, {b:?}, state {state:?}, room {}, {}", order.name, before.len(), text.told());
    tally.fault("a slot's refusal", &text.set, a.fault, b.refusal);
    let same = a.length == b.bytes && our_state == their_state && our_lines == their_lines;
    tally.hold("what a slot left", &text.set, same, told);
    if a.fault.refusal == 0 {
        tally.hold("the bytes after a slot's lines", &text.set, our_lines[a.length..] == before[a.length..], told);
    } else {
        tally.hold("what a refused slot left", &text.set, our_state == state && our_lines == before, told);
    }
    our_state
}

/// The program's text in a buffer of any length; 10 for one that is too short, which stays as it was.
fn program(tally: &mut Tally, order: &Order, rng: &mut Rng, text: &Text) {
    let planned = (order.second_program)(text.bytes);
    let before = vec![BEFORE; room(rng, planned.len())];
    let mut out = before.clone();
    let a = (order.program)(text.bytes, &mut out);
    let fits = planned.len() <= before.len();
    let refusal = if fits { Refusal::NONE } else { Refusal::at(10, 0) };
    (order.count)(tally, refusal);
    let told = || format!("{}, {a:?}, room {}, {}", order.name, before.len(), text.told());
    tally.fault("the program's refusal", &text.set, a.fault, refusal);
    let length = if fits { planned.len() } else { 0 };
    let same = a.length == length && out[..length] == planned[..length] && out[length..] == before[length..];
    tally.hold("the program's text", &text.set, same, told);
}
