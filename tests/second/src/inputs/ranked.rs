//! Sets for fixed priority, request 4 of document 02: those of the request with answers found by hand; sets whose runs come
//! to their bounds; chains, which alone show that a bound must count what a flow's packets were held up before; and sets
//! whose first flow over its deadline is any.

use super::named::typed;
use super::sets::{self, align, draw, lawful, round_periods, Shape};
use super::Rng;
use crate::fixed::fixed_of;
use crate::record::{Flow, Set};

/// A set and what fixed priority makes of it.
pub struct Ranked {
    /// What it is there for.
    pub name: &'static str,
    /// Its text.
    pub text: String,
    /// Whether the test admits.
    pub admitted: bool,
    /// How many flows are judged.
    pub judged: u32,
    /// The bound of each flow.
    pub bounds: Vec<u32>,
    /// What the slots up to 11 send: slot, flow.
    pub sends: Vec<(u32, u8)>,
    /// What they deliver: slot, flow, delay.
    pub delivered: Vec<(u32, u8, u16)>,
    /// What they drop: slot, flow.
    pub dropped: Vec<(u32, u8)>,
}

/// P1, P5 and X1 to X5 of the request, a set without flows, and one with the greatest bound that is known.
pub fn named() -> Vec<Ranked> {
    vec![p1(), p5(), x1(), x2(), x3(), x4(), x5(), no_flows(), bound_of_a_million()]
}

/// n of flow 0 for flow 1 is (20 + 2 − 1) / 10 rounded up, 3, and both its links meet flow 1: 2 + 3 · 2. The slots are
/// those of document 01.
fn p1() -> Ranked {
    Ranked {
        name: "P1 by fixed priority",
        text: typed("set 3;flow 10 8 0 1 1 2 3;flow 20 20 0 1 4 2 5;"),
        admitted: true,
        judged: 2,
        bounds: vec![2, 8],
        sends: vec![(0, 0), (1, 0), (2, 1), (3, 1), (10, 0), (11, 0)],
        delivered: vec![(1, 0, 2), (3, 1, 4), (11, 0, 2)],
        dropped: vec![],
    }
}

/// n is (2 + 1 − 1) / 10 rounded up, 1; no conflict, one channel: 1 + 1 / 1.
fn p5() -> Ranked {
    Ranked {
        name: "P5 by fixed priority",
        text: typed("set 1;flow 10 2 0 1 1 2;flow 10 2 0 1 3 4;"),
        admitted: true,
        judged: 2,
        bounds: vec![1, 2],
        sends: vec![(0, 0), (1, 1), (10, 0), (11, 1)],
        delivered: vec![(0, 0, 1), (1, 1, 2), (10, 0, 1), (11, 1, 2)],
        dropped: vec![],
    }
}

/// Flow 1 waits for both of flow 0's transmissions, 1 + 2, and its deadline is 2: it is dropped in slot 1, and again in 11.
fn x1() -> Ranked {
    Ranked {
        name: "X1, the later deadline first",
        text: typed("set 1;flow 10 10 0 1 1 2 3;flow 10 2 0 1 4 5;"),
        admitted: false,
        judged: 2,
        bounds: vec![2, 3],
        sends: vec![(0, 0), (1, 0), (10, 0), (11, 0)],
        delivered: vec![(1, 0, 2), (11, 0, 2)],
        dropped: vec![(1, 1), (11, 1)],
    }
}

/// X1's lines exchanged: n is (10 + 1 − 1) / 10, 1 without rounding; 2 + 1. Without the − 1 it would be 2, and the bound 4.
fn x2() -> Ranked {
    Ranked {
        name: "X2, the earlier deadline first",
        text: typed("set 1;flow 10 2 0 1 4 5;flow 10 10 0 1 1 2 3;"),
        admitted: true,
        judged: 2,
        bounds: vec![1, 3],
        sends: vec![(0, 0), (1, 1), (2, 1), (10, 0), (11, 1)],
        delivered: vec![(0, 0, 1), (2, 1, 3), (10, 0, 1)],
        dropped: vec![],
    }
}

/// P3's five flows on four channels, and a sixth with a later deadline. Each of the first four counts for less than a
/// channel's slot, all four for flow 4 make 1 + 4 / 4, above its deadline of 1; flow 5 is not judged.
fn x3() -> Ranked {
    let five: String = (0..5).map(|k| format!("flow 10 1 0 1 {} {};", 2 * k + 1, 2 * k + 2)).collect();
    let four = |slot: u32| (0..4).map(move |flow| (slot, flow));
    let with = |slot: u32| four(slot).chain([(slot + 1, 5)]);
    let delivered = with(0).chain(with(10)).map(|(slot, flow)| (slot, flow, if flow == 5 { 2 } else { 1 }));
    Ranked {
        name: "X3, a flow after the first over its deadline",
        text: typed(&format!("set 15;{five}flow 10 9 0 1 11 12;")),
        admitted: false,
        judged: 5,
        bounds: vec![1, 1, 1, 1, 2, 0],
        sends: with(0).chain(with(10)).collect(),
        delivered: delivered.collect(),
        dropped: vec![(0, 4), (10, 4)],
    }
}

/// Flow 0 meets flow 1 and flow 1 meets flow 2. Flow 1's packet of slot 0 is held up by flow 0 until slot 2, so that two of
/// its packets fill the four slots of flow 2's window: n is (4 + 4 − 1) / 4 rounded up, 2; 1 + 2 · 2 + 2 / 3. With
/// (4 − 1) / 4 for n it would be 1, the bound 3, and the set admitted.
fn x4() -> Ranked {
    Ranked {
        name: "X4, a chain whose last packet is dropped",
        text: typed("set 7;flow 24 2 0 2 1 2;flow 4 4 0 2 2 3;flow 24 4 2 1 3 4;"),
        admitted: false,
        judged: 3,
        bounds: vec![2, 4, 5],
        sends: vec![(0, 0), (1, 0), (2, 1), (3, 1), (4, 1), (5, 1), (8, 1), (9, 1)],
        delivered: vec![(1, 0, 2), (3, 1, 4), (5, 1, 2), (9, 1, 2)],
        dropped: vec![(5, 2)],
    }
}

/// n is (2 + 1 − 1) / 3 rounded up, 1, and rounded down 0. Both flows have a packet in slot 7, and flow 1's goes in slot 8.
fn x5() -> Ranked {
    let ones = [(1, 0), (3, 1), (4, 0), (5, 1), (7, 0), (8, 1), (9, 1), (10, 0), (11, 1)];
    Ranked {
        name: "X5, a packet that takes its very bound",
        text: typed("set 1;flow 3 2 1 1 1 2;flow 2 2 3 1 2 3;"),
        admitted: true,
        judged: 2,
        bounds: vec![1, 2],
        sends: ones.to_vec(),
        delivered: ones.map(|(slot, flow)| (slot, flow, if slot == 8 { 2 } else { 1 })).to_vec(),
        dropped: vec![],
    }
}

/// No flows: admitted, and nothing to judge.
fn no_flows() -> Ranked {
    let (bounds, sends, delivered, dropped) = Default::default();
    let text = typed("set 1;");
    Ranked { name: "no flows", text, admitted: true, judged: 0, bounds, sends, delivered, dropped }
}

/// 16 flows send in each slot, one on each channel, and the route of flow 16 has a node of each: 64 + 16 · 65,535.
fn bound_of_a_million() -> Ranked {
    let small: String = (0..16).map(|k| format!("flow 1 1 0 1 {k} {};", 100 + k)).collect();
    let route: String = (0..17).map(|i| format!(" {i}")).collect();
    let each: Vec<(u32, u8)> = (0..12).flat_map(|slot| (0..16).map(move |flow| (slot, flow))).collect();
    Ranked {
        name: "a bound of a million",
        text: typed(&format!("set 65535;{small}flow 65535 65535 0 4{route};")),
        admitted: false,
        judged: 17,
        bounds: [vec![1; 16], vec![64 + 16 * 65_535]].concat(),
        delivered: each.iter().map(|&(slot, flow)| (slot, flow, 1)).collect(),
        sends: each,
        dropped: vec![],
    }
}

/// Sets for which a run comes to the bounds: few channels, few nodes, few different periods, deadlines at the bounds, and
/// starts that let releases or deadlines fall together.
pub fn tight(rng: &mut Rng) -> Set {
    let short = rng.within(1, 6);
    let shape = Shape {
        flows: (2, 7),
        channels: (1, 3),
        nodes: (2, rng.within(2, 4)),
        pool: rng.pick(&[4, 6, 9, 16]),
        tries: rng.within(1, 2),
        periods: rng.pick(&[(short, 2 * short), (2 * short, 5 * short), (4, 24), (12, 40)]),
        start: 30,
        loops: true,
    };
    let mut set = draw(rng, &shape);
    round_periods(rng, &mut set);
    pull_in(rng, &mut set);
    align(rng, &mut set);
    set
}

/// Moves deadlines to the bounds, each time because its own deadline makes a flow's bound; an unjudged flow keeps its own.
fn pull_in(rng: &mut Rng, set: &mut Set) {
    for _ in 0..rng.within(0, 6) {
        let fixed = fixed_of(set);
        for k in (0..fixed.judged).filter(|&k| k > 0) {
            if !rng.once_in(4) {
                set.flows[k].deadline = lawful(&set.flows[k], fixed.bound[k] as usize + rng.pick(&[0, 0, 0, 1]));
            }
        }
    }
}

/// Chains h-l-k: each l goes over a node of the flows h and over one of k, and no h meets k. In a slot where h holds up l
/// nobody holds up k, and l's late packet and its next one then come together in k's window.
pub fn chain(rng: &mut Rng) -> Set {
    let hs = rng.within(1, 2);
    let mut set = Set { map: rng.pick(&[7, 15, 65_535]), count: hs as u16 + 2, ..Set::BLANK };
    for h in 0..hs {
        set.flows[h] = link(rng, &[20], 100 + 10 * h as u16);
        set.flows[h].period = rng.within(16, 48) as u16;
        set.flows[h].deadline = rng.within(set.flows[h].c() as usize, 16) as u16;
    }
    let l = &mut set.flows[hs];
    *l = link(rng, &[20, 30], 200);
    l.period = rng.within(l.c() as usize, 3 * l.c() as usize + 4) as u16;
    l.deadline = l.period;
    let burst = l.c() as usize;
    let k = &mut set.flows[hs + 1];
    *k = link(rng, &[30], 300);
    k.period = rng.within(20, 48) as u16;
    k.deadline = rng.within(k.c() as usize, k.c() as usize + 2 * burst + 2) as u16;
    together(rng, &mut set, hs);
    if rng.once_in(2) {
        pull_in(rng, &mut set);
    }
    set
}

/// A flow of one link or two over these nodes, with one of its own at an end or without.
fn link(rng: &mut Rng, nodes: &[u16], own: u16) -> Flow {
    let mut route = nodes.to_vec();
    if route.len() < 2 || rng.once_in(3) {
        route.insert([0, route.len()][rng.below(2)], own);
    }
    if rng.once_in(2) {
        route.reverse();
    }
    let mut flow = Flow { tries: rng.within(1, 3) as u16, nodes: route.len() as u16, ..Flow::default() };
    flow.route[..route.len()].copy_from_slice(&route);
    flow
}

/// The flows h and l start together, and k mostly where h is through.
fn together(rng: &mut Rng, set: &mut Set, hs: usize) {
    let start = rng.within(0, 6) as u16;
    let held: u32 = set.flows[..hs].iter().map(Flow::c).sum();
    for flow in &mut set.flows[..=hs] {
        flow.start = start + rng.pick(&[0, 0, 0, 1]);
    }
    let later = if rng.once_in(3) { rng.within(0, 20) as u16 } else { held as u16 };
    set.flows[hs + 1].start = start + later;
}

/// Sets of every size with deadlines on either side of the line: at the bounds or one below, so that the first flow over its
/// deadline is any.
pub fn edge(rng: &mut Rng) -> Set {
    let mut set = match rng.below(5) {
        0 => sets::large(rng),
        1 => sets::wide(rng),
        2 => tight(rng),
        _ => sets::small(rng),
    };
    for flow in &mut set.flows[..usize::from(set.count)] {
        if rng.once_in(2) {
            flow.deadline = flow.period;
        }
    }
    pull_in(rng, &mut set);
    let fixed = fixed_of(&set);
    if fixed.judged > 1 && rng.once_in(2) {
        let k = rng.within(1, fixed.judged - 1);
        set.flows[k].deadline = lawful(&set.flows[k], fixed.bound[k] as usize - 1);
    }
    set
}

/// A set of any of these kinds.
pub fn any(rng: &mut Rng) -> Set {
    match rng.below(4) {
        0 => tight(rng),
        1 => chain(rng),
        2 => edge(rng),
        _ => sets::any(rng),
    }
}

/// Sets whose slots are the same under both orders: all starts and periods are equal and deadlines rise with the flows'
/// numbers, so that the earlier deadline always has the lower number.
pub fn alike(rng: &mut Rng) -> Set {
    let mut set = sets::any(rng);
    let used = &mut set.flows[..usize::from(set.count)];
    let period = used.iter().map(|flow| flow.period).max().unwrap_or(1);
    let (start, mut least) = (rng.pick(&[0, 0, 3]), 1);
    for flow in used {
        (flow.period, flow.start) = (period, start);
        flow.deadline = flow.deadline.max(least);
        least = flow.deadline;
    }
    set
}
