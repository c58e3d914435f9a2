//! Wrong rules, put in one at a time: the tests of the tests. Document 01's "Easy slips", then what its first section
//! says "this paper decides", then what could be taken for requests 1 to 4 of document 02. A slip is a constant of the
//! types [`PlannerWith`] and [`MachineWith`](crate::machine::MachineWith), of [`check_with`](crate::check::check_with),
//! [`read_with`](crate::read::read_with) and [`fixed_with`](crate::fixed::fixed_with), or of the functions of
//! [`superframe`](crate::superframe), so the right rules ([`NONE`]) pay nothing for them.

use crate::delay::{Others, PlannerWith};
use crate::field::fields;
use crate::record::{Flow, MOST_FLOWS, MOST_NODES};

/// No slip: document 01's rules.
pub const NONE: u8 = 0;
/// Each flow's contention share is divided by m before adding.
pub const DIVIDE_EACH: u8 = 1;
/// A slot's choice ends at the first packet passed over.
pub const END_AT_PASSED: u8 = 2;
/// S counts only links that both routes have.
pub const COMMON_LINKS: u8 = 3;
/// One packet of l too few in a window that ends at l's deadline.
pub const PACKET_TOO_FEW: u8 = 4;
/// r − (D − v) may go below 0.
pub const BELOW_ZERO: u8 = 5;
/// The same in another shape: the window ends one slot before l's deadline.
pub const SHORT_WINDOW: u8 = 13;
/// The higher flow number goes first, of equal deadlines or of all.
pub const HIGHER_FIRST: u8 = 6;
/// Entries of the list may rise above the deadline.
pub const NO_CLAMP: u8 = 7;
/// The rounds stop as soon as the set is schedulable.
pub const STOP_WHEN_ADMITTED: u8 = 8;
/// A round uses the entries of the round before.
pub const OLD_ENTRIES: u8 = 9;
/// A packet is still ready in the slot of its absolute deadline.
pub const KEEP_LATE: u8 = 10;
/// The state's count is believed in a release slot.
pub const KEEP_COUNT: u8 = 11;
/// The radio channel is the one at place offset, whatever the slot.
pub const STILL_CHANNELS: u8 = 12;
/// S counts a link once, however often it stands in l's route.
pub const LINK_ONCE: u8 = 14;
/// Refusal 8 is given for a node that stands anywhere earlier in the route.
pub const NODE_TWICE: u8 = 15;
/// The hyper-period is the product of the periods.
pub const PRODUCT: u8 = 16;
/// A device takes the channel by the table's slot.
pub const TABLE_CHANNEL: u8 = 17;
/// A row of the table has the try for the transmission's number.
pub const TRY_FOR_NUMBER: u8 = 18;
/// Refusal 8 names the earlier of the two equal nodes.
pub const EARLIER_NODE: u8 = 19;
/// Refusal 5 names the period.
pub const PERIOD_FOR_DEADLINE: u8 = 20;
/// A missing LF names the line's last field.
pub const LF_FIELD: u8 = 21;
/// A number too many on the first line names the map.
pub const MAP_FOR_SURPLUS: u8 = 22;
/// An empty line has no field.
pub const EMPTY_LINE: u8 = 23;
/// No bad number is found behind as many fields as the longest good line has.
pub const KEPT_FIELDS: u8 = 24;
/// Fields are counted in 16 bits.
pub const SHORT_COUNT: u8 = 25;
/// n is rounded down.
pub const ROUND_DOWN: u8 = 26;
/// n without the bound of l.
pub const NO_BOUND: u8 = 27;
/// n as if every packet of l were through in its release slot.
pub const BOUND_OF_ONE: u8 = 28;
/// n without its − 1.
pub const NO_LESS_ONE: u8 = 29;
/// Flows after the first over its deadline are judged too.
pub const JUDGE_ON: u8 = 30;
/// The flow over its deadline has bound 0.
pub const OVER_IS_ZERO: u8 = 31;
/// A flow's own packets count too: l up to k.
pub const OWN_PACKETS: u8 = 32;
/// The conflict share is divided by m too.
pub const SHARE_CONFLICTS: u8 = 33;

/// Whether a slip is one of the equation's.
pub(crate) const fn changes_value(slip: u8) -> bool {
    matches!(slip, DIVIDE_EACH | PACKET_TOO_FEW | SHORT_WINDOW | BELOW_ZERO)
}

/// The equation's value with a slip in it, in signed numbers and one flow after the other.
pub(crate) fn value<const SLIP: u8>(planner: &PlannerWith<SLIP>, k: usize, v: &[i64; MOST_FLOWS]) -> u32 {
    let (other, m) = (&planner.others[k], i64::from(planner.m));
    let (mut x, mut contention) = (0, 0);
    for (l, entry) in v.iter().enumerate().take(planner.count).filter(|&(l, _)| l != k) {
        let (c, s) = (i64::from(planner.c[l]), i64::from(other.s[l]));
        let (mut q, mut r) = (i64::from(planner.quotient(k, l)), i64::from(other.remainder[l]));
        match SLIP {
            PACKET_TOO_FEW if r == 0 => q = (q - 1).max(0),
            SHORT_WINDOW if r == 0 && q > 0 => (q, r) = (q - 1, i64::from(planner.deadline[k]) / q - 1),
            SHORT_WINDOW => r -= 1,
            _ => {}
        }
        let slack = i64::from(planner.deadline[l]) - entry;
        let rest = if SLIP == BELOW_ZERO { r - slack } else { (r - slack).max(0) };
        let (whole, conflict) = (q * c + c.min(rest), q * s + s.min(rest));
        x += conflict;
        contention += if SLIP == DIVIDE_EACH { (whole - conflict) / m } else { whole - conflict };
    }
    let contention = if SLIP == DIVIDE_EACH { contention } else { contention / m };
    (i64::from(planner.c[k]) + x + contention).max(0) as u32
}

/// The values at a list whose entries follow the equation above the deadline too; it may never settle, so it is cut.
pub(crate) fn unclamped<const SLIP: u8>(planner: &PlannerWith<SLIP>) -> [u32; MOST_FLOWS] {
    let mut v = planner.deadline.map(i64::from);
    for _ in 0..100 {
        for k in 0..planner.count {
            v[k] = i64::from(value(planner, k, &v));
        }
    }
    v.map(|entry| entry as u32)
}

/// Whether every value at a list is at most its deadline.
pub(crate) fn admitted<const SLIP: u8>(planner: &PlannerWith<SLIP>, v: &[u16; MOST_FLOWS]) -> bool {
    (0..planner.count).all(|k| planner.value(k, v) <= u32::from(planner.deadline[k]))
}

/// S of every pair, counting only links that both routes have.
pub(crate) fn common_links(flows: &[Flow], others: &mut [Others]) {
    let has = |flow: &Flow, link: &[u16]| flow.used().windows(2).any(|own| own == link || own == [link[1], link[0]]);
    for (k, other) in others.iter_mut().enumerate() {
        for (l, flow) in flows.iter().enumerate().filter(|&(l, _)| l != k) {
            let common = flow.used().windows(2).filter(|link| has(&flows[k], link)).count();
            other.s[l] = flow.tries * common as u16;
        }
    }
}

/// S of every pair, a link that stood earlier in the route counted no more.
pub(crate) fn link_once(flows: &[Flow], others: &mut [Others]) {
    for (k, other) in others.iter_mut().enumerate() {
        for (l, flow) in flows.iter().enumerate().filter(|&(l, _)| l != k) {
            let links: Vec<&[u16]> = flow.used().windows(2).collect();
            let touches = |link: &[u16]| link.iter().any(|end| flows[k].used().contains(end));
            let counted = (0..links.len()).filter(|&i| touches(links[i]) && !links[..i].contains(&links[i])).count();
            other.s[l] = flow.tries * counted as u16;
        }
    }
}

/// Whether a node stands anywhere earlier in the route.
pub(crate) fn node_twice(route: &[u16]) -> bool {
    (1..route.len()).any(|i| route[..i].contains(&route[i]))
}

/// The field that a refusal names with a slip in it, from the right one. The text begins with the line.
pub(crate) fn field<const SLIP: u8>(number: u8, line: usize, text: &[u8], right: usize) -> usize {
    match (SLIP, number) {
        (EARLIER_NODE, 8) => right - 1,
        (PERIOD_FOR_DEADLINE, 5) => 2,
        (LF_FIELD, 1) if right == 0 && !text.contains(&b'\n') => fields(text).count(),
        (MAP_FOR_SURPLUS, 1) if line == 1 && right == 3 => 2,
        (EMPTY_LINE, 1) if text.starts_with(b"\n") => 0,
        (KEPT_FIELDS, 1) if right > 5 + MOST_NODES => 0,
        (SHORT_COUNT, _) => right % 65_536,
        _ => right,
    }
}
