//! Sets to be loaded as a superframe: starts 0 and a short hyper-period, many of them admitted; and sets on either side of
//! what refuses one.

use super::sets::{self, draw, pull_in, Shape};
use super::Rng;
use crate::record::{Flow, Set};

/// Starts 0, and periods that divide one short hyper-period; many are admitted, some by the tightened test alone.
pub fn short(rng: &mut Rng) -> Set {
    let shape = Shape {
        flows: rng.pick(&[(0, 3), (1, 6), (4, 12)]),
        channels: rng.pick(&[(1, 3), (2, 6), (16, 16)]),
        nodes: (2, rng.within(2, 5)),
        pool: rng.pick(&[5, 12, 60]),
        tries: rng.within(1, 3),
        periods: (1, 1),
        start: 0,
        loops: true,
    };
    let mut set = draw(rng, &shape);
    let hyper = rng.pick(&[12, 20, 30, 36, 48, 60, 84, 120, 210]);
    for flow in &mut set.flows[..usize::from(set.count)] {
        periodic(rng, flow, hyper);
    }
    pull_in(rng, &mut set);
    set
}

/// Gives a flow a period that divides this one, often a large one, and a deadline that is often the period.
fn periodic(rng: &mut Rng, flow: &mut Flow, hyper: u16) {
    let c = flow.c() as u16;
    let divisors: Vec<u16> = (c..=hyper).filter(|period| hyper % period == 0).collect();
    let from = if rng.once_in(2) { divisors.len() / 2 } else { 0 };
    flow.period = if divisors.is_empty() { c.div_ceil(hyper) * hyper } else { rng.pick(&divisors[from..]) };
    flow.deadline = if rng.once_in(3) { rng.within(c.into(), flow.period.into()) as u16 } else { flow.period };
}

/// Two flows, or three, of a few links whose hyper-period is near 65,536, on either side of it; nearly all are admitted.
pub fn long(rng: &mut Rng) -> Set {
    let small = rng.within(2, 12);
    let near = if rng.once_in(2) { rng.within(65_300, 65_800) } else { rng.within(65_530, 65_542) };
    let (one, other) = match rng.below(4) {
        0 => (65_535, rng.pick(&[3, 5, 15, 17, 51, 85, 255, 257])),
        1 => (65_535 - rng.below(40), rng.pick(&[1, 2, 3])),
        _ => (near / small, small),
    };
    let shape = Shape {
        flows: (2, 3),
        channels: (2, 4),
        nodes: (2, 2),
        pool: 40,
        tries: 1,
        periods: (1, 1),
        start: 0,
        loops: false,
    };
    let mut set = draw(rng, &shape);
    for (k, flow) in set.flows[..usize::from(set.count)].iter_mut().enumerate() {
        flow.period = if k == 0 { one } else { other } as u16;
        flow.deadline = flow.period;
    }
    set
}

/// A short one in which one flow has a large prime period: with a second period above 1 the hyper-period is too long.
fn too_long(rng: &mut Rng) -> Set {
    let mut set = short(rng);
    if set.count > 0 {
        let last = usize::from(set.count) - 1;
        set.flows[rng.within(0, last)].period = rng.pick(&[65_521, 65_519, 32_779]);
    }
    set
}

/// A set whose superframe is short, seldom long, or refused for any reason there is.
pub fn any(rng: &mut Rng) -> Set {
    let mut set = match rng.below(60) {
        0 => long(rng),
        1..=6 => too_long(rng),
        7..=14 => sets::any(rng),
        _ => short(rng),
    };
    if set.count > 0 && rng.once_in(6) {
        // one flow alone starts later, the last as often as any
        let last = usize::from(set.count) - 1;
        let flow = &mut set.flows[[last, rng.within(0, last)][rng.below(2)]];
        flow.start = rng.pick(&[1, 5, 65_535, flow.period]);
    }
    set
}

/// So many one-link flows without a common node, each with this period and deadline, and one of period and deadline `last`
/// behind them, on all channels.
fn beside(flows: u16, period: u16, last: u16) -> Set {
    let mut set = Set { map: 65_535, count: flows + 1, ..Set::BLANK };
    for k in 0..=flows {
        let period = if k < flows { period } else { last };
        let flow = &mut set.flows[usize::from(k)];
        *flow = Flow { period, deadline: period, tries: 1, nodes: 2, ..Flow::default() };
        (flow.route[0], flow.route[1]) = (2 * k, 2 * k + 1);
    }
    set
}

/// F3: 15 flows in every slot and one in 65,535 slots, 983,026 rows.
pub fn f3() -> Set {
    beside(15, 1, 65_535)
}

/// The most rows that are known: 63 flows in every fourth slot and one in 65,532 slots, 1,032,130 rows.
pub fn most_rows() -> Set {
    beside(63, 4, 65_532)
}

/// 64 flows with a hyper-period of 65,520 slots, for measuring: both tests admit, two thirds of the slots are busy, and
/// there are 216,387 rows.
pub fn many() -> Set {
    let shape = Shape {
        flows: (64, 64),
        channels: (16, 16),
        nodes: (3, 5),
        pool: 400,
        tries: 2,
        periods: (1, 1),
        start: 0,
        loops: false,
    };
    let mut set = draw(&mut Rng::new(4), &shape);
    for (k, flow) in set.flows.iter_mut().enumerate() {
        flow.period = [60, 63, 65, 70, 72, 78, 80, 84, 90, 91, 104, 105, 112, 117, 120, 126][k % 16];
        flow.deadline = flow.period;
    }
    set
}
