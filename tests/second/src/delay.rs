//! Document 01, "The two delay tests": C, S, the shares, both bounds of each flow, the rounds, the verdicts.
//!
//! A [`Planner`] is prepared once for a set: S, q and r once for each pair. The rounds then only add up.

use crate::check::check;
use crate::record::{Flow, Refusal, Set, MOST_FLOWS, MOST_NODES};
use crate::slip;

/// The verdicts of both tests, and the rounds of the tightened one; "no" and 0 where refused.
#[derive(Clone, Copy, Debug, Default, PartialEq, Eq)]
pub struct Verdict {
    /// The record's or the text's refusal.
    pub refusal: Refusal,
    /// Whether the basic test admits.
    pub basic: bool,
    /// Whether the tightened test admits.
    pub tightened: bool,
    /// How many rounds were made, the last that changes nothing among them.
    pub rounds: u32,
}

/// The bounds of one flow; zeros throughout where refused.
#[derive(Clone, Copy, Debug, Default, PartialEq, Eq)]
pub struct Bound {
    /// The set's own refusal, or 13.
    pub refusal: Refusal,
    /// C.
    pub c: u32,
    /// The bound of the basic test.
    pub basic: u32,
    /// The bound of the tightened test.
    pub tightened: u32,
    /// D.
    pub deadline: u32,
    /// Deadline less tightened bound, signed.
    pub margin: i32,
}

/// The verdict on any record (document 01, both tests).
pub fn verdict(set: &Set) -> Verdict {
    match Planner::new(set) {
        Ok(planner) => planner.delays().verdict(),
        Err(refusal) => Verdict { refusal, ..Verdict::default() },
    }
}

/// The bounds of the flow of that number, for any record: the set's own refusal, then 13.
pub fn bound(set: &Set, flow: u32) -> Bound {
    match Planner::new(set) {
        Ok(planner) => planner.delays().bound(flow),
        Err(refusal) => Bound { refusal, ..Bound::default() },
    }
}

/// What both tests find out about a good set; entries beyond the last flow are 0.
#[derive(Clone, Copy, Debug, PartialEq, Eq)]
pub struct Delays {
    /// How many flows there are.
    pub count: usize,
    /// C of each flow.
    pub c: [u16; MOST_FLOWS],
    /// D of each flow.
    pub deadline: [u16; MOST_FLOWS],
    /// The basic bounds.
    pub basic: [u32; MOST_FLOWS],
    /// The greatest list.
    pub list: [u16; MOST_FLOWS],
    /// The tightened bounds: the equation's values at the greatest list.
    pub tightened: [u32; MOST_FLOWS],
    /// How many rounds were made.
    pub rounds: u32,
}

impl Delays {
    /// Whether every one of these bounds is at most its deadline. With no flows it is.
    pub fn admits(&self, bounds: &[u32; MOST_FLOWS]) -> bool {
        (0..self.count).all(|k| bounds[k] <= u32::from(self.deadline[k]))
    }

    /// The verdicts and the rounds.
    pub fn verdict(&self) -> Verdict {
        Verdict {
            refusal: Refusal::NONE,
            basic: self.admits(&self.basic),
            tightened: self.admits(&self.tightened),
            rounds: self.rounds,
        }
    }

    /// The bounds of the flow of that number, or refusal 13.
    pub fn bound(&self, flow: u32) -> Bound {
        let k = flow as usize;
        if k >= self.count {
            return Bound { refusal: Refusal::at(13, 0), ..Bound::default() };
        }
        let deadline = u32::from(self.deadline[k]);
        Bound {
            refusal: Refusal::NONE,
            c: u32::from(self.c[k]),
            basic: self.basic[k],
            tightened: self.tightened[k],
            deadline,
            margin: deadline as i32 - self.tightened[k] as i32,
        }
    }
}

/// What one flow k knows of every other flow l. The entry of k itself, and those beyond the last flow, are 0, so
/// sums over more places than there are flows are sums over the others.
#[derive(Clone)]
pub(crate) struct Others {
    /// r: the remainder of D of k by T of l.
    pub(crate) remainder: [u16; MOST_FLOWS],
    /// S.
    pub(crate) s: [u16; MOST_FLOWS],
    /// Σ q·C of l, with q the quotient of D of k by T of l, which no list changes.
    whole: u32,
    /// Σ q·S, which no list changes.
    conflict: u32,
}

impl Others {
    /// No other flow.
    pub(crate) const NONE: Others = Others { remainder: [0; MOST_FLOWS], s: [0; MOST_FLOWS], whole: 0, conflict: 0 };
}

/// Up to here sums go over this many places, beyond it over all 64: a fixed number of places is added eight at a time.
const FEW: usize = 16;

/// A planner by document 01's rules.
pub type Planner = PlannerWith<{ slip::NONE }>;

/// A planner prepared for one set, with one of the wrong rules put in for the tests of the tests.
pub struct PlannerWith<const SLIP: u8> {
    pub(crate) count: usize,
    pub(crate) m: u32,
    pub(crate) c: [u16; MOST_FLOWS],
    pub(crate) deadline: [u16; MOST_FLOWS],
    period: [u16; MOST_FLOWS],
    pub(crate) others: Vec<Others>,
}

impl<const SLIP: u8> PlannerWith<SLIP> {
    /// Prepares a record, or hands back its refusal.
    pub fn new(set: &Set) -> Result<Self, Refusal> {
        let refusal = check(set);
        if refusal.refuses() {
            return Err(refusal);
        }
        Ok(Self::prepared(set))
    }

    /// Prepares a set that is known to be good, so that one that was just read is not checked a second time.
    pub(crate) fn prepared(set: &Set) -> Self {
        let flows = set.used();
        let (mut c, mut deadline, mut period) = ([0; MOST_FLOWS], [0; MOST_FLOWS], [0; MOST_FLOWS]);
        for (k, flow) in flows.iter().enumerate() {
            (c[k], deadline[k], period[k]) = (flow.c() as u16, flow.deadline, flow.period);
        }
        let others = vec![Others::NONE; flows.len()];
        let mut planner = PlannerWith { count: flows.len(), m: set.m(), c, deadline, period, others };
        if SLIP == slip::COMMON_LINKS {
            slip::common_links(flows, &mut planner.others);
        } else if SLIP == slip::LINK_ONCE {
            slip::link_once(flows, &mut planner.others);
        } else if flows.len() > 1 {
            conflicts(flows, &mut planner.others);
        }
        planner.windows();
        planner
    }

    /// q and r of every pair, and the parts of the sums that no list changes. A number of 16 bits times 2³²/T rounded
    /// up, without the product's lowest 32 bits, is its quotient by T, so there is one division for each flow and not
    /// for each pair.
    fn windows(&mut self) {
        let mut inverse = [0; MOST_FLOWS];
        for (inverse, &period) in inverse.iter_mut().zip(&self.period[..self.count]) {
            *inverse = (1u64 << 32).div_ceil(u64::from(period));
        }
        for (k, other) in self.others.iter_mut().enumerate() {
            let deadline = u32::from(self.deadline[k]);
            for l in (0..self.count).filter(|&l| l != k) {
                let q = ((u64::from(deadline) * inverse[l]) >> 32) as u32;
                other.remainder[l] = (deadline - q * u32::from(self.period[l])) as u16;
                other.whole += q * u32::from(self.c[l]);
                other.conflict += q * u32::from(other.s[l]);
            }
        }
    }

    /// q: the quotient of D of k by T of l.
    pub(crate) fn quotient(&self, k: usize, l: usize) -> u32 {
        u32::from(self.deadline[k] / self.period[l])
    }

    /// S of the flows k and l ≠ k: κ of l times the number of l's links that have an end on k's route, each link once for
    /// each place it has there. 0 for k = l.
    /// Panics where k or l is no flow of the set, as `shares` and `value` do.
    pub fn s(&self, k: usize, l: usize) -> u32 {
        u32::from(self.others[k].s[l])
    }

    /// The whole and the conflict share of l in k's window, with l's entry `v` (at most its deadline) of a list;
    /// with its deadline for `v` they are the basic shares.
    pub fn shares(&self, k: usize, l: usize, v: u16) -> (u32, u32) {
        let other = &self.others[k];
        let (q, c, s) = (self.quotient(k, l), u32::from(self.c[l]), u32::from(other.s[l]));
        let rest = u32::from(other.remainder[l].saturating_sub(self.deadline[l].saturating_sub(v)));
        (q * c + c.min(rest), q * s + s.min(rest))
    }

    /// The equation's value of flow k at a list: C of k + ΣX + (ΣW − ΣX) / m. Both sums' changing parts fit 16 bits
    /// (64 flows of C at most 64).
    pub fn value(&self, k: usize, v: &[u16; MOST_FLOWS]) -> u32 {
        if slip::changes_value(SLIP) {
            return slip::value(self, k, &v.map(i64::from));
        }
        let other = &self.others[k];
        let (w, x) = if self.count <= FEW { self.sums::<FEW>(other, v) } else { self.sums::<MOST_FLOWS>(other, v) };
        let (w, x) = (other.whole + u32::from(w), other.conflict + u32::from(x));
        u32::from(self.c[k]) + x + (w - x) / self.m
    }

    /// The parts of ΣW and ΣX that a list changes, over the first places.
    fn sums<const PLACES: usize>(&self, other: &Others, v: &[u16; MOST_FLOWS]) -> (u16, u16) {
        let (mut w, mut x) = (0, 0);
        for l in 0..PLACES {
            let rest = other.remainder[l].saturating_sub(self.deadline[l].saturating_sub(v[l]));
            w += rest.min(self.c[l]);
            x += rest.min(other.s[l]);
        }
        (w, x)
    }

    /// One round: through the flows in order, each entry replaced by the smaller of itself and the equation's value,
    /// new entries used at once. Answers whether anything changed.
    pub fn round(&self, v: &mut [u16; MOST_FLOWS]) -> bool {
        let (before, mut changed) = (*v, false);
        for k in 0..self.count {
            let value = self.value(k, if SLIP == slip::OLD_ENTRIES { &before } else { v });
            if value < u32::from(v[k]) {
                v[k] = value as u16;
                changed = true;
            }
        }
        changed
    }

    /// Both tests: the basic bounds, the rounds from v = D until the first that changes nothing, and the values at
    /// the list they end with.
    pub fn delays(&self) -> Delays {
        let mut list = self.deadline;
        let basic = self.values(&list);
        let mut rounds = 1;
        while self.round(&mut list) {
            rounds += 1;
            if SLIP == slip::STOP_WHEN_ADMITTED && slip::admitted(self, &list) {
                break;
            }
        }
        let mut tightened = self.values(&list);
        if SLIP == slip::NO_CLAMP {
            tightened = slip::unclamped(self);
        }
        Delays { count: self.count, c: self.c, deadline: self.deadline, basic, list, tightened, rounds }
    }

    /// The equation's value of every flow at a list.
    fn values(&self, v: &[u16; MOST_FLOWS]) -> [u32; MOST_FLOWS] {
        let mut values = [0; MOST_FLOWS];
        for (k, value) in values[..self.count].iter_mut().enumerate() {
            *value = self.value(k, v);
        }
        values
    }
}

/// S of every pair: `others[k].s[l]`. The flows that a link counts for are those whose routes have one of its two ends,
/// so each route is searched once and not once for each flow. A link that stands again in l's route counts again there;
/// how often k's route has its ends makes no difference, one bit says that it has.
pub(crate) fn conflicts(flows: &[Flow], others: &mut [Others]) {
    let mut users = Users::room(flows);
    let places: Vec<_> = flows.iter().enumerate().map(|(k, flow)| users.enter(k, flow)).collect();
    for (l, flow) in flows.iter().enumerate() {
        for ends in places[l][..flow.used().len()].windows(2) {
            let mut touched = (users.bits[ends[0]] | users.bits[ends[1]]) & !(1 << l);
            while touched != 0 {
                others[touched.trailing_zeros() as usize].s[l] += flow.tries;
                touched &= touched - 1;
            }
        }
    }
}

/// Every node of a set, with one bit for each flow whose route it is on. A node stands at the place that its number
/// leads to, or where that is another node's at the next free one; at least half of the places stay free.
struct Users {
    nodes: Vec<u16>,
    /// 0 at a free place.
    bits: Vec<u64>,
    /// How many of 32 bits a place has not.
    shift: u32,
}

impl Users {
    /// Room for the nodes of these flows.
    fn room(flows: &[Flow]) -> Users {
        let nodes: usize = flows.iter().map(|flow| flow.used().len()).sum();
        let places = (2 * nodes).next_power_of_two();
        Users { nodes: vec![0; places], bits: vec![0; places], shift: 32 - places.ilog2() }
    }

    /// Enters the route of flow k, and answers the place of each of its nodes.
    fn enter(&mut self, k: usize, flow: &Flow) -> [usize; MOST_NODES] {
        let mut places = [0; MOST_NODES];
        for (place, &node) in places.iter_mut().zip(flow.used()) {
            *place = self.place(node);
            self.nodes[*place] = node;
            self.bits[*place] |= 1 << k;
        }
        places
    }

    /// Where a node stands, or would.
    fn place(&self, node: u16) -> usize {
        let mut at = (u32::from(node).wrapping_mul(0x9e37_79b1) >> self.shift) as usize;
        while self.bits[at] != 0 && self.nodes[at] != node {
            at = (at + 1) % self.nodes.len();
        }
        at
    }
}
