//! Flow sets that the reader accepts: small, large, tiny enough to try all lists, with deadlines on either side of a
//! line, with bounds that a run attains, with routes that come back to a node, and the ring with the most rounds known.

use super::Rng;
use crate::delay::Planner;
use crate::record::{Flow, Set, MOST_FLOWS, MOST_NODES};

/// From what a set is drawn: least and most of each.
#[derive(Clone, Copy, Debug)]
pub struct Shape {
    /// How many flows.
    pub flows: (usize, usize),
    /// How many channels.
    pub channels: (usize, usize),
    /// How many nodes a route has.
    pub nodes: (usize, usize),
    /// How many different nodes there are to draw from; few of them make conflicts.
    pub pool: usize,
    /// Most tries.
    pub tries: usize,
    /// The periods; a period is never below C.
    pub periods: (usize, usize),
    /// Most start.
    pub start: usize,
    /// Whether routes may come back to a node.
    pub loops: bool,
}

/// A set of this shape. With loops, in most sets some or all of the routes come back to a node.
pub fn draw(rng: &mut Rng, shape: &Shape) -> Set {
    let mut set = Set { map: map(rng, shape.channels), ..Set::BLANK };
    set.count = rng.within(shape.flows.0, shape.flows.1) as u16;
    // of four routes so many, where they are long enough
    let returning = if shape.loops { rng.pick(&[0, 1, 2, 3, 4, 4]) } else { 0 };
    for k in 0..usize::from(set.count) {
        let returns = returning > 0 && rng.below(4) < returning;
        set.flows[k] = flow(rng, shape, returns);
    }
    if shape.loops {
        renumber(rng, shape.pool, &mut set);
    }
    set
}

/// Whether a route of the set comes back to a node.
pub fn returns(set: &Set) -> bool {
    let again = |route: &[u16]| (0..route.len()).any(|i| route[i + 1..].contains(&route[i]));
    set.used().iter().any(|flow| again(flow.used()))
}

/// Often gives the nodes other numbers, one to one: the greatest there are; numbers that are alike modulo 256; multiples
/// of 511, which are alike once the quotient by 512 is added to the remainder; or every other node one of these. What
/// sorts nodes by a few of their bits tells all, none or some of them apart.
fn renumber(rng: &mut Rng, pool: usize, set: &mut Set) {
    let number: fn(u16) -> u16 = match rng.below(8) {
        0 => |node| 65_535 - node,
        1 if pool <= 256 => |node| 256 * node + 7,
        2 if pool <= 128 => |node| 511 * (node + 1),
        3 if pool <= 128 => |node| if node % 2 == 0 { node } else { 511 * (node + 1) },
        _ => return,
    };
    for flow in &mut set.flows[..usize::from(set.count)] {
        flow.route[..usize::from(flow.nodes)].iter_mut().for_each(|node| *node = number(*node));
    }
}

/// A channel map with some number of ones, anywhere.
fn map(rng: &mut Rng, channels: (usize, usize)) -> u16 {
    let wanted = rng.within(channels.0, channels.1) as u32;
    let mut map = 0u16;
    while map.count_ones() < wanted {
        map |= 1 << rng.below(16);
    }
    map
}

/// A flow of this shape. Deadlines are often C or the period, where rules change sides.
fn flow(rng: &mut Rng, shape: &Shape, returns: bool) -> Flow {
    let mut flow = Flow { tries: rng.within(1, shape.tries) as u16, ..Flow::default() };
    let most = shape.nodes.1.min(MOST_NODES);
    if returns && most > 2 {
        let wanted = rng.within(shape.nodes.0.max(3), most);
        come_back(rng, &mut flow, wanted, shape.pool);
    } else {
        let wanted = rng.within(shape.nodes.0, most.min(shape.pool));
        different(rng, &mut flow, wanted, shape.pool);
    }
    let c = flow.c() as usize;
    let period = rng.within(c.max(shape.periods.0), c.max(shape.periods.1));
    flow.period = period as u16;
    flow.deadline = match rng.below(4) {
        0 => flow.period,
        1 => c as u16,
        _ => rng.within(c, period) as u16,
    };
    flow.start = if rng.once_in(2) { 0 } else { rng.within(0, shape.start) as u16 };
    flow
}

/// A route of so many different nodes out of the pool, which has as many.
fn different(rng: &mut Rng, flow: &mut Flow, wanted: usize, pool: usize) {
    while usize::from(flow.nodes) < wanted {
        let node = rng.below(pool) as u16;
        if !flow.used().contains(&node) {
            put(flow, node);
        }
    }
}

/// A route of three nodes or more that comes back to a node: out and back over the same nodes; round a circle, the
/// smallest of which is two nodes to and fro; or any way at all, which seldom comes back to none.
fn come_back(rng: &mut Rng, flow: &mut Flow, wanted: usize, pool: usize) {
    let way = rng.below(3);
    let circle = rng.within(2, (wanted - 1).min(pool));
    let fresh = [wanted / 2 + 1, circle, 1][way];
    different(rng, flow, fresh, pool);
    for i in fresh..wanted {
        let node = match way {
            0 => flow.route[2 * (fresh - 1) - i],
            1 => flow.route[i - fresh],
            _ => next(rng, flow.used(), pool),
        };
        put(flow, node);
    }
}

/// Any node but the last of the route, every other time one that stands there already.
fn next(rng: &mut Rng, route: &[u16], pool: usize) -> u16 {
    loop {
        let node = if rng.once_in(2) { rng.pick(route) } else { rng.below(pool) as u16 };
        if route.last() != Some(&node) {
            return node;
        }
    }
}

/// Puts a node at the route's end.
fn put(flow: &mut Flow, node: u16) {
    flow.route[usize::from(flow.nodes)] = node;
    flow.nodes += 1;
}

/// Tiny sets: few enough lists to try them all. Either few flows with room, or one more with less of it.
pub fn tiny(rng: &mut Rng) -> Set {
    let (flows, periods) = rng.pick(&[((0, 3), (2, 12)), ((2, 3), (4, 12)), ((4, 4), (2, 6))]);
    let shape = Shape {
        flows,
        channels: (1, 3),
        nodes: (2, rng.within(3, 4)),
        pool: rng.within(3, 7),
        tries: rng.pick(&[1, 1, 2]),
        periods,
        start: 6,
        loops: true,
    };
    let mut set = draw(rng, &shape);
    if rng.once_in(2) {
        pull_in(rng, &mut set);
    }
    set
}

/// Small sets, many of them admitted.
pub fn small(rng: &mut Rng) -> Set {
    let shape = Shape {
        flows: (0, 8),
        channels: (1, 4),
        nodes: (2, 5),
        pool: rng.pick(&[5, 8, 30]),
        tries: rng.within(1, 4),
        periods: rng.pick(&[(1, 12), (8, 40), (30, 300)]),
        start: rng.pick(&[5, 50]),
        loops: true,
    };
    draw(rng, &shape)
}

/// Large sets, up to every limit.
pub fn large(rng: &mut Rng) -> Set {
    let shape = Shape {
        flows: rng.pick(&[(9, 64), (60, 64), (64, 64)]),
        channels: rng.pick(&[(1, 16), (16, 16)]),
        nodes: rng.pick(&[(2, 17), (2, 4), (17, 17)]),
        pool: rng.pick(&[20, 100, 1000, 65_536]),
        tries: rng.within(1, 4),
        periods: rng.pick(&[(1, 400), (100, 5_000), (1, 65_535), (65_000, 65_535)]),
        start: 65_535,
        loops: true,
    };
    draw(rng, &shape)
}

/// Many flows with so much room that they are often admitted.
pub fn wide(rng: &mut Rng) -> Set {
    let shape = Shape {
        flows: (20, 64),
        channels: (4, 16),
        nodes: (2, 5),
        pool: rng.pick(&[60, 250]),
        tries: rng.within(1, 2),
        periods: rng.pick(&[(300, 900), (600, 600)]),
        start: 300,
        loops: true,
    };
    let mut set = draw(rng, &shape);
    for flow in &mut set.flows[..usize::from(set.count)] {
        flow.deadline = flow.period;
    }
    set
}

/// Sets on either side of a line: the deadlines lie at the flows' own bounds or a little above, and then often one
/// of them is taken one below.
pub fn edge(rng: &mut Rng) -> Set {
    let mut set = match rng.below(4) {
        0 => large(rng),
        1 => wide(rng),
        _ => small(rng),
    };
    pull_in(rng, &mut set);
    let Ok(planner) = Planner::new(&set) else { return set };
    let delays = planner.delays();
    if delays.count > 0 && rng.once_in(2) {
        let k = rng.below(delays.count);
        let line = if rng.once_in(2) { delays.basic[k] } else { delays.tightened[k] };
        set.flows[k].deadline = lawful(&set.flows[k], line as usize - 1);
    }
    set
}

/// A deadline moved to where the flow is still good: from C to T.
pub(super) fn lawful(flow: &Flow, deadline: usize) -> u16 {
    deadline.clamp(flow.c() as usize, usize::from(flow.period)) as u16
}

/// Sets for which a run comes to the bounds: few channels, few nodes, few different periods, deadlines at the bounds,
/// and starts that let all absolute deadlines fall together, or all releases.
pub fn tight(rng: &mut Rng) -> Set {
    let short = rng.within(1, 6);
    let shape = Shape {
        flows: (2, 7),
        channels: (1, 3),
        nodes: (2, rng.within(2, 5)),
        pool: rng.pick(&[4, 6, 9, 16]),
        tries: rng.within(1, 2),
        periods: rng.pick(&[(short, short), (short, 2 * short), (2 * short, 5 * short), (4, 24)]),
        start: 30,
        loops: true,
    };
    let mut set = draw(rng, &shape);
    round_periods(rng, &mut set);
    pull_in(rng, &mut set);
    align(rng, &mut set);
    set
}

/// Often makes the periods multiples of the first, so that windows end at deadlines (r = 0).
pub(super) fn round_periods(rng: &mut Rng, set: &mut Set) {
    if rng.once_in(3) {
        return;
    }
    let first = set.flows[0].period;
    for flow in &mut set.flows[..usize::from(set.count)] {
        flow.period = flow.period.div_ceil(first) * first;
        flow.deadline = if rng.once_in(2) { flow.period } else { flow.deadline };
    }
}

/// Moves deadlines to the bounds, again and again because each deadline moves other bounds.
pub(super) fn pull_in(rng: &mut Rng, set: &mut Set) {
    for _ in 0..rng.within(0, 5) {
        let Ok(planner) = Planner::new(set) else { return };
        let delays = planner.delays();
        let tightened = rng.once_in(2);
        for k in 0..delays.count {
            let line = if tightened { delays.tightened[k] } else { delays.basic[k] };
            if !rng.once_in(3) {
                set.flows[k].deadline = lawful(&set.flows[k], line as usize + rng.pick(&[0, 0, 0, 1]));
            }
        }
    }
}

/// Chooses starts: releases together, absolute deadlines together, or as drawn.
pub(super) fn align(rng: &mut Rng, set: &mut Set) {
    let together = rng.within(24, 60) as u16;
    let way = rng.below(4);
    for flow in &mut set.flows[..usize::from(set.count)] {
        flow.start = match way {
            0 => 0,
            1 | 2 => (together + flow.period * 8 - flow.deadline) % flow.period,
            _ => flow.start,
        };
    }
}

/// A set of any of these kinds.
pub fn any(rng: &mut Rng) -> Set {
    match rng.below(6) {
        0 => tiny(rng),
        1 | 2 => small(rng),
        3 => large(rng),
        4 => edge(rng),
        _ => tight(rng),
    }
}

/// A set at every limit, for measuring: 64 flows of 17 nodes on 16 channels.
pub fn full(rng: &mut Rng) -> Set {
    full_of(rng, 400)
}

/// The same with this many different nodes.
fn full_of(rng: &mut Rng, pool: usize) -> Set {
    let shape = Shape {
        flows: (64, 64),
        channels: (16, 16),
        nodes: (17, 17),
        pool,
        tries: 1,
        periods: (2_000, 60_000),
        start: 2_000,
        loops: false,
    };
    draw(rng, &shape)
}

/// The first of these flows with deadlines at their periods, for measuring: by fixed priority the test judges all of them.
pub fn roomy(flows: u16) -> Set {
    let mut set = Set { count: flows, ..full(&mut Rng::new(1)) };
    for flow in &mut set.flows {
        flow.deadline = flow.period;
    }
    set
}

/// 64 flows of 17 nodes at every limit, for measuring: each goes out over nine nodes and comes back over the same.
pub fn loops() -> Set {
    let mut set = full(&mut Rng::new(1));
    for flow in &mut set.flows {
        for i in 9..MOST_NODES {
            flow.route[i] = flow.route[16 - i];
        }
    }
    set
}

/// The longest accepted text, for measuring: every number as long as it can be.
pub fn longest() -> Set {
    let mut set = full(&mut Rng::new(1));
    set.map = 65_535;
    for flow in &mut set.flows {
        (flow.period, flow.deadline, flow.start, flow.tries) = (65_535, 65_535, 65_535, 4);
        for (i, node) in (0..).zip(&mut flow.route) {
            *node = 65_535 - i;
        }
    }
    set
}

/// Flows of 17 nodes whose numbers are alike modulo 256, up to 64 of them: what tells nodes apart by their low bits
/// tells nothing here.
pub fn alike(flows: u16) -> Set {
    let mut set = full_of(&mut Rng::new(9), 256);
    set.count = flows;
    for flow in &mut set.flows {
        flow.route = flow.route.map(|node| 256 * node + 7);
    }
    set
}

/// 64 flows of one link with this period and deadline, whose starts are this far apart, for measuring: few slots have a packet.
pub fn spread(period: u16, apart: u16) -> Set {
    let mut set = full(&mut Rng::new(2));
    for (start, flow) in (0..).map(|k: u16| k * apart).zip(&mut set.flows) {
        (flow.period, flow.deadline, flow.start, flow.nodes, flow.tries) = (period, period, start, 2, 1);
    }
    set
}

/// 64 flows that always have a packet ready, for measuring.
pub fn busy() -> Set {
    let mut set = full(&mut Rng::new(3));
    for flow in &mut set.flows {
        (flow.period, flow.deadline, flow.start, flow.tries) = (64, 64, 0, 4);
    }
    set
}

/// A ring of 64 flows on 16 channels in which a loss of one slot runs round and round, one flow a round.
///
/// Flow k's route goes to and fro between nodes of its own and those of flow k − 1 (flow 63 for flow 0), so it shares
/// nodes with its two neighbours only. The deadline of flow k + 1 is above that of k by what flow k + 1's entry comes
/// to (64 of its own, 60 or 64 of its neighbour, a 16th of the others' 64), so that its entry lies where one slot
/// less for it is one slot less for k. Flow 0's period is 65 below flow 63's deadline, so that the remainder of 65
/// brings flow 0's loss to flow 63. A round goes through the flows in rising order but a loss falls to the next lower
/// flow, so a round moves it one place and about 63 times round the ring make some 4,000 rounds.
pub fn ring64() -> Set {
    let mut set = Set { map: 65_535, count: MOST_FLOWS as u16, ..Set::BLANK };
    let mut deadline = 130;
    for k in 0..64u16 {
        let before = (k + 63) % 64;
        let flow = &mut set.flows[usize::from(k)];
        *flow = Flow { period: 65_535, deadline, start: 0, tries: 4, nodes: 17, route: [0; MOST_NODES] };
        for (i, node) in (0..).zip(&mut flow.route) {
            *node = if i % 2 == 0 { 9 * k + i / 2 } else { 9 * before + i / 2 };
        }
        deadline += 124 + 4 * k + if k == 62 { 60 } else { 0 };
    }
    set.flows[0].period = set.flows[63].deadline - 65;
    set
}
