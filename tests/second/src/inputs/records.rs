//! Records with garbage where nothing counts, records with faults, and states good and bad.

use super::{sets, Rng};
use crate::host::bytes_of_state;
use crate::record::{Flow, Set, State, LAST_SLOT, MOST_FLOWS, MOST_NODES};

/// Fills every entry beyond the count and beyond each route's end with anything: it is the same set still. Right behind a
/// route's end its last node often stands once more, as a node that equals the one before it would.
pub fn garbage(rng: &mut Rng, set: &mut Set) {
    let count = usize::from(set.count);
    for (k, flow) in set.flows.iter_mut().enumerate() {
        if k >= count {
            *flow = anything(rng);
            continue;
        }
        let end = flow.used().len();
        let last = if end > 0 { flow.route[end - 1] } else { 0 };
        let again = rng.pick(&[0, 1, 1, MOST_NODES]);
        for (i, node) in flow.route[end..].iter_mut().enumerate() {
            *node = if i < again { last } else { rng.word() };
        }
    }
}

/// A flow with anything in every field.
fn anything(rng: &mut Rng) -> Flow {
    let mut flow = Flow {
        period: rng.word(),
        deadline: rng.word(),
        start: rng.word(),
        tries: rng.word(),
        nodes: rng.word(),
        ..Flow::default()
    };
    flow.route.fill_with(|| rng.word());
    flow
}

/// Any record: good ones with garbage beyond, ones with a fault or two, and some with anything in every field.
pub fn record(rng: &mut Rng) -> Set {
    let mut set = sets::any(rng);
    garbage(rng, &mut set);
    match rng.below(8) {
        0 => {
            set.map = rng.word();
            set.count = rng.word();
            set.flows.fill_with(|| anything(rng));
        }
        1 => crowd(rng, &mut set),
        2 | 3 => {}
        _ => {
            for _ in 0..rng.within(1, 2) {
                spoil(rng, &mut set);
            }
        }
    }
    set
}

/// A count above 64, mostly with 64 good flows under it.
fn crowd(rng: &mut Rng, set: &mut Set) {
    let used = set.used().len();
    for k in used..MOST_FLOWS {
        set.flows[k] = if used > 0 { set.flows[k % used] } else { anything(rng) };
    }
    set.count = rng.pick(&[65, 66, 70, 255, 256, 320, 65_535]);
    if rng.once_in(4) {
        spoil(rng, set);
    }
}

/// Puts one fault into a record: the map, or one number of one flow.
fn spoil(rng: &mut Rng, set: &mut Set) {
    let used = set.used().len();
    if used == 0 || rng.once_in(16) {
        set.map = 0;
        return;
    }
    let flow = &mut set.flows[rng.below(used)];
    match rng.below(7) {
        0 => flow.period = 0,
        1 => flow.deadline = rng.pick(&[0, flow.period.saturating_add(1), 65_535]),
        2 => flow.tries = rng.pick(&[0, 5, 256, 65_535]),
        3 => flow.nodes = rng.pick(&[0, 1, 18, 19, 255, 256, 65_535]),
        4 => {
            // a node that equals the one before it: the second, the last, or any
            let last = flow.used().len().max(2) - 1;
            let later = [1, last, rng.within(1, last)][rng.below(3)];
            flow.route[later] = flow.route[later - 1];
        }
        5 => flow.deadline = (flow.c() as u16).saturating_sub(1),
        _ => (flow.period, flow.tries) = (1, 4),
    }
}

/// Any state for a set, most of them good: the counts at most C, the slot near a release, anywhere, or at the limit.
pub fn state(rng: &mut Rng, set: &Set) -> State {
    let mut state = State { slot: slot(rng, set), ..State::FRESH };
    let way = rng.below(4);
    for (k, flow) in set.used().iter().enumerate() {
        let c = flow.c().min(255) as usize;
        state.sent[k] = match way {
            0 => 0,
            1 => c.saturating_sub(rng.below(2)) as u8,
            _ => rng.within(0, c) as u8,
        };
    }
    if rng.once_in(5) {
        spoil_state(rng, set, &mut state);
    }
    state
}

/// A slot worth trying.
fn slot(rng: &mut Rng, set: &Set) -> u32 {
    let used = set.used();
    match rng.below(8) {
        0 => rng.below(12) as u32,
        1 => LAST_SLOT - rng.below(3) as u32,
        2 => rng.below(70_000) as u32,
        3 => rng.below(LAST_SLOT as usize) as u32,
        _ if used.is_empty() => 0,
        _ => {
            let flow = used[rng.below(used.len())];
            let packet = rng.below(5) as u32 * u32::from(flow.period);
            let places = [0, u32::from(flow.deadline), u32::from(flow.period)];
            (u32::from(flow.start) + packet + rng.pick(&places)).saturating_sub(rng.below(3) as u32)
        }
    }
}

/// Makes a state bad: a count above C, one that is not 0 beyond the last flow, or a slot above the limit.
fn spoil_state(rng: &mut Rng, set: &Set, state: &mut State) {
    let used = set.used().len();
    match rng.below(3) {
        0 if used > 0 => {
            let k = rng.below(used);
            state.sent[k] = (set.flows[k].c().min(254) as u8 + 1).max(rng.pick(&[0, 0, 255]));
        }
        1 if used < MOST_FLOWS => state.sent[rng.within(used, MOST_FLOWS - 1)] = rng.within(1, 255) as u8,
        _ => state.slot = rng.pick(&[LAST_SLOT + 1, LAST_SLOT + 5, u32::MAX, u32::MAX - 1]),
    }
}

/// The bytes of such a state, seldom of another length than 68.
pub fn state_bytes(rng: &mut Rng, set: &Set) -> Vec<u8> {
    let mut bytes = bytes_of_state(&state(rng, set)).to_vec();
    if rng.once_in(10) {
        bytes.resize(rng.pick(&[0, 1, 4, 64, 67, 69, 136]), 0);
    }
    bytes
}
