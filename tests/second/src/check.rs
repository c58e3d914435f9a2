//! Document 01, "Refusal numbers", rules 2 to 9 of a set handed over as a record; rule 8 as request 1 of document 02
//! has it.

use crate::record::{Flow, Refusal, Set, MOST_FLOWS, MOST_NODES};
use crate::slip;

/// The refusal of a record: judged line by line as its text would be, so the map at line 1, then the flows in order,
/// and a flow count above 64 as 3 at line 66 after all 64 flows are good.
pub fn check(set: &Set) -> Refusal {
    check_with::<{ slip::NONE }>(set)
}

/// The same with one of the wrong rules put in for the tests of the tests.
pub fn check_with<const SLIP: u8>(set: &Set) -> Refusal {
    if set.map == 0 {
        return Refusal::at(2, 1);
    }
    for (line, flow) in (2..).zip(set.used()) {
        let number = fault_with::<SLIP>(flow);
        if number != 0 {
            return Refusal::at(number, line);
        }
    }
    if usize::from(set.count) > MOST_FLOWS {
        return Refusal::at(3, MOST_FLOWS + 2);
    }
    Refusal::NONE
}

/// The lowest of the rules 4 to 9 that applies to a flow, 0 where none does.
pub fn fault(flow: &Flow) -> u8 {
    fault_with::<{ slip::NONE }>(flow)
}

fn fault_with<const SLIP: u8>(flow: &Flow) -> u8 {
    if flow.period == 0 {
        4
    } else if flow.deadline == 0 || flow.deadline > flow.period {
        5
    } else if flow.tries < 1 || flow.tries > 4 {
        6
    } else if flow.nodes < 2 || usize::from(flow.nodes) > MOST_NODES {
        7
    } else if stands_still::<SLIP>(flow.used()) {
        8
    } else if flow.c() > u32::from(flow.deadline) {
        9
    } else {
        0
    }
}

/// Whether a node of the route equals the one just before it. A node may return later; what stands behind the route's
/// end is no node of it.
fn stands_still<const SLIP: u8>(route: &[u16]) -> bool {
    if SLIP == slip::NODE_TWICE {
        return slip::node_twice(route);
    }
    route.windows(2).any(|pair| pair[0] == pair[1])
}
