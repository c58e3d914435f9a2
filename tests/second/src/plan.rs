//! Document 01, "The plan program": its whole output for any input.

use crate::delay::{Delays, Planner};
use crate::host::put_sends;
use crate::machine::{Machine, Slot};
use crate::read::read;
use crate::record::{Refusal, Set, State};
use crate::write::put_line;

/// The longest input that is read.
pub const MOST_BYTES: usize = 16_384;
/// The plan goes through this slot.
pub const LAST_PRINTED: u32 = 11;

/// What the plan program prints for an input: the verdict, the bounds and the `send` lines through slot 11, whether or
/// not a test admits; or one line with the refusal.
pub fn plan(input: &[u8]) -> Vec<u8> {
    if input.len() > MOST_BYTES {
        return refused(Refusal::at(10, 0));
    }
    let read = read(input);
    if read.refusal.refuses() {
        return refused(read.refusal);
    }
    plan_of(&read.set)
}

/// The line of a refusal: `refused`, number, line, field.
pub(crate) fn refused(refusal: Refusal) -> Vec<u8> {
    let mut text = Vec::new();
    put_line(&mut text, b"refused", &[i64::from(refusal.number), refusal.line as i64, refusal.field as i64]);
    text
}

/// The plan of a set that was read.
fn plan_of(set: &Set) -> Vec<u8> {
    let delays = Planner::prepared(set).delays();
    let mut machine = Machine::prepared(set, 0);
    print(&delays, |state, slot| {
        machine.step(state, slot);
    })
}

/// The text of a plan, from what the tests found out and a machine's step.
pub fn print(delays: &Delays, step: impl FnMut(&mut State, &mut Slot)) -> Vec<u8> {
    let mut text = Vec::new();
    put_delays(&mut text, delays);
    put_slots(&mut text, step);
    text
}

/// The `send` lines of a machine's steps from the fresh state through slot 11.
pub(crate) fn put_slots(text: &mut Vec<u8>, mut step: impl FnMut(&mut State, &mut Slot)) {
    let (mut state, mut slot) = (State::FRESH, Slot::new());
    for t in 0..=LAST_PRINTED {
        step(&mut state, &mut slot);
        put_sends(text, t, &slot);
    }
}

/// `verdict`: basic, tightened, rounds. `bound`: flow, C, basic, tightened, deadline, margin.
fn put_delays(text: &mut Vec<u8>, delays: &Delays) {
    let verdict = delays.verdict();
    put_line(text, b"verdict", &[verdict.basic.into(), verdict.tightened.into(), verdict.rounds.into()]);
    for k in 0..delays.count as u32 {
        let bound = delays.bound(k);
        let (c, basic, tightened) = (bound.c.into(), bound.basic.into(), bound.tightened.into());
        put_line(text, b"bound", &[k.into(), c, basic, tightened, bound.deadline.into(), bound.margin.into()]);
    }
}
