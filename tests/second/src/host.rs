//! Document 01, "What is planned, and from what": what the manager's host program in C calls, with the set as text.
//! The text is read before anything else is tested, with the reader's refusals.

use crate::delay::{Bound, Planner, Verdict};
use crate::machine::{MachineWith, Slot, BY_DEADLINE, BY_NUMBER};
use crate::read::read;
use crate::record::{Refusal, State, MOST_FLOWS};
use crate::slip;
use crate::write::{lend, put_line, Written};

/// A state's bytes: the slot in four, then one count for each of 64 flows.
pub const STATE_BYTES: usize = 4 + MOST_FLOWS;

/// The verdict on a text.
pub fn verdict_of_text(text: &[u8]) -> Verdict {
    let read = read(text);
    if read.refusal.refuses() {
        return Verdict { refusal: read.refusal, ..Verdict::default() };
    }
    Planner::prepared(&read.set).delays().verdict()
}

/// The bounds of the flow of that number in a text.
pub fn bound_of_text(text: &[u8], flow: u32) -> Bound {
    let read = read(text);
    if read.refusal.refuses() {
        return Bound { refusal: read.refusal, ..Bound::default() };
    }
    Planner::prepared(&read.set).delays().bound(flow)
}

/// How many numbers a flow has in a table of all bounds: C, basic bound, tightened bound, deadline.
pub const TABLE_ROW: usize = 4;

/// The bounds of all flows of a text, four numbers a flow at the head of a lent table, whose further ones stay. Refusals:
/// the text's, then 10 where the table is too short; refused, it leaves the table alone. Answers how many numbers it
/// wrote.
pub fn all_bounds_of_text(text: &[u8], table: &mut [u32]) -> (Refusal, usize) {
    let read = read(text);
    if read.refusal.refuses() {
        return (read.refusal, 0);
    }
    let delays = Planner::prepared(&read.set).delays();
    let Some(table) = table.get_mut(..TABLE_ROW * delays.count) else {
        return (Refusal::at(10, 0), 0);
    };
    for (k, row) in table.chunks_exact_mut(TABLE_ROW).enumerate() {
        row.copy_from_slice(&[delays.c[k].into(), delays.basic[k], delays.tightened[k], delays.deadline[k].into()]);
    }
    (Refusal::NONE, table.len())
}

/// The C step: writes the next state into the 68 bytes and the slot's `send` lines into the second buffer, whose
/// further bytes stay. Refusals in document 01's order: the text's, 12 (also for a length other than 68), 11, 10;
/// refused, it leaves both buffers alone.
pub fn step_of_text(text: &[u8], state: &mut [u8], buffer: &mut [u8]) -> Written {
    step_by::<BY_DEADLINE>(text, state, buffer)
}

/// The C step by fixed priority, with the same refusals.
pub fn fixed_step_of_text(text: &[u8], state: &mut [u8], buffer: &mut [u8]) -> Written {
    step_by::<BY_NUMBER>(text, state, buffer)
}

fn step_by<const ORDER: u8>(text: &[u8], state: &mut [u8], buffer: &mut [u8]) -> Written {
    let read = read(text);
    if read.refusal.refuses() {
        return Written { refusal: read.refusal, bytes: 0 };
    }
    let t = state_of_bytes(state).map_or(0, |state| state.slot);
    step_of_bytes(&mut MachineWith::<{ slip::NONE }, ORDER>::prepared(&read.set, t), state, buffer)
}

/// The C step of a machine that was prepared before: 12, 11, 10, and only then the two buffers.
pub fn step_of_bytes<const ORDER: u8>(
    machine: &mut MachineWith<{ slip::NONE }, ORDER>,
    state: &mut [u8],
    buffer: &mut [u8],
) -> Written {
    let Some(mut next) = state_of_bytes(state) else {
        return Written { refusal: Refusal::at(12, 0), bytes: 0 };
    };
    let (t, mut slot) = (next.slot, Slot::default());
    let refusal = machine.step(&mut next, &mut slot);
    if refusal.refuses() {
        return Written { refusal, bytes: 0 };
    }
    let mut lines = Vec::new();
    put_sends(&mut lines, t, &slot);
    let written = lend(&lines, buffer);
    if !written.refusal.refuses() {
        state.copy_from_slice(&bytes_of_state(&next));
    }
    written
}

/// The `send` lines of a slot: slot, flow, from, to, try, radio channel.
pub fn put_sends(text: &mut Vec<u8>, t: u32, slot: &Slot) {
    for sent in &slot.sends {
        let (flow, from, to) = (i64::from(sent.flow), i64::from(sent.from), i64::from(sent.to));
        put_line(text, b"send", &[i64::from(t), flow, from, to, i64::from(sent.attempt), i64::from(sent.channel)]);
    }
}

/// The state that 68 bytes stand for: the slot lowest byte first, then the counts. None for any other length.
pub fn state_of_bytes(bytes: &[u8]) -> Option<State> {
    let bytes: &[u8; STATE_BYTES] = bytes.try_into().ok()?;
    let mut state = State::FRESH;
    for (place, &byte) in bytes[..4].iter().enumerate() {
        state.slot |= u32::from(byte) << (8 * place);
    }
    state.sent.copy_from_slice(&bytes[4..]);
    Some(state)
}

/// The 68 bytes of a state.
pub fn bytes_of_state(state: &State) -> [u8; STATE_BYTES] {
    let mut bytes = [0; STATE_BYTES];
    bytes[..4].copy_from_slice(&state.slot.to_le_bytes());
    bytes[4..].copy_from_slice(&state.sent);
    bytes
}
