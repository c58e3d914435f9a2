//! Sets with a name and with answers found by hand: what sets drawn from a seed seldom or never have. `text` is the set;
//! the comments say how its answers follow from document 01, and from request 1 of document 02 for routes that return.

use crate::record::Refusal;

/// A set and what is said of it.
pub struct Named {
    /// What it is there for.
    pub name: &'static str,
    /// Its text.
    pub text: String,
    /// The verdict: basic, tightened, rounds.
    pub verdict: (bool, bool, u32),
    /// Of some flows: number, basic bound, tightened bound.
    pub bounds: Vec<(u32, u32, u32)>,
    /// The packets delivered up to slot 11: slot, flow, delay. None where they are not found by hand.
    pub delivered: Option<Vec<(u32, u8, u16)>>,
}

/// All of them.
pub fn sets() -> Vec<Named> {
    vec![
        bound_of_four_million(),
        lowered_above_65535(),
        one_route(),
        no_common_node(),
        alike_modulo_256(),
        starts_and_delays(),
        tries_beside_another(),
        out_and_back_alone(),
        out_and_back_beside_another(),
        a_link_again(),
        two_nodes_to_and_fro(),
        loops_alike(),
    ]
}

/// The nodes from `first` on, each `step` above the one before, as fields.
fn nodes(first: u32, step: u32, count: u32) -> String {
    (0..count).map(|i| format!("\t{}", first + step * i)).collect()
}

/// 63 flows send in each of the 65,535 slots of flow 63's window, on one channel: 64 + 63 · 65,535. Each of them has 63
/// others that send once in its one slot: 64. No entry can fall, so the first round is the last.
fn bound_of_four_million() -> Named {
    let small: String = (0..63).map(|k| format!("flow\t1\t1\t0\t1{}\n", nodes(2 * k, 1, 2))).collect();
    Named {
        name: "a tightened bound of four million",
        text: format!("set\t1\n{small}flow\t65535\t65535\t65535\t4{}\n", nodes(60_000, 1, 17)),
        verdict: (false, false, 1),
        bounds: vec![(0, 64, 64), (62, 64, 64), (63, 4_128_769, 4_128_769)],
        delivered: None,
    }
}

/// Flow 17 has 17 nodes, and each of the other flows, of C 8, goes over one of them with both its links, so S is 8. In
/// 65,535 slots 485 periods of 135 pass and 60 slots are left over: 64 + 17 · (485 · 8 + 8) = 66,160. The others' entries
/// fall to 27 (8, and 8 of flow 17's 64, and a 16th of the other 16 · 8 + 64 − 8), 108 below their deadline, so nothing
/// comes in the 60 slots left over: 64 + 17 · 485 · 8 = 66,024. Flow 0 and flow 16 cross only one of flow 17's links, so
/// their entries are 8 + 4 + (16 · 8 + 64 − 4) / 16 = 23. The second round changes nothing.
fn lowered_above_65535() -> Named {
    let small: String = (0..17).map(|k| format!("flow\t135\t135\t0\t4\t{}\t{k}\t{}\n", 100 + k, 200 + k)).collect();
    Named {
        name: "a tightened bound above 65,535 that the rounds lower",
        text: format!("set\t65535\n{small}flow\t65535\t65535\t0\t4{}\n", nodes(0, 1, 17)),
        verdict: (false, false, 2),
        bounds: vec![(0, 23, 23), (1, 27, 27), (15, 27, 27), (16, 23, 23), (17, 66_160, 66_024)],
        delivered: None,
    }
}

/// Every link of every flow shares nodes with every route: 64 · 64 for each. All entries fall to that in the first round.
fn one_route() -> Named {
    let line = format!("flow\t65535\t65535\t0\t4{}\n", nodes(0, 4_000, 17));
    Named {
        name: "64 flows of 17 nodes that share them all",
        text: format!("set\t65535\n{}", line.repeat(64)),
        verdict: (true, true, 2),
        bounds: vec![(0, 4_096, 4_096), (31, 4_096, 4_096), (63, 4_096, 4_096)],
        delivered: Some(Vec::new()),
    }
}

/// No two flows share a node: 16 + 63 · 16 / 16.
fn no_common_node() -> Named {
    let lines: String = (0..64).map(|k| format!("flow\t1000\t1000\t0\t1{}\n", nodes(17 * k, 1, 17))).collect();
    Named {
        name: "64 routes of 17 nodes with no common node",
        text: format!("set\t65535\n{lines}"),
        verdict: (true, true, 2),
        bounds: vec![(0, 79, 79), (40, 79, 79), (63, 79, 79)],
        delivered: Some(Vec::new()),
    }
}

/// As P7, with nodes that only their upper bits tell apart: flows 0 and 2 share node 7, flow 1 shares none.
fn alike_modulo_256() -> Named {
    Named {
        name: "nodes alike modulo 256",
        text: "set\t3\nflow\t10\t10\t0\t1\t7\t263\nflow\t10\t10\t0\t1\t519\t775\nflow\t10\t10\t0\t1\t1031\t7\n".into(),
        verdict: (true, true, 2),
        bounds: vec![(0, 2, 2), (1, 2, 2), (2, 2, 2)],
        delivered: Some(vec![(0, 0, 1), (0, 1, 1), (1, 2, 2), (10, 0, 1), (10, 1, 1), (11, 2, 2)]),
    }
}

/// One channel. Both flows start in slot 3; flow 0's absolute deadline is 9 and flow 1's is 10, so flow 0 has slots 3 and
/// 4, and flow 1 slot 5. Flow 1's next packet comes in slot 10 and flow 0's in slot 13. Each waits for the other's whole
/// C once: 2 + 1 and 1 + 2.
fn starts_and_delays() -> Named {
    Named {
        name: "starts other than 0, and a packet's delay",
        text: "set\t1\nflow\t10\t6\t3\t1\t1\t2\t3\nflow\t7\t7\t3\t1\t4\t5\n".into(),
        verdict: (true, true, 2),
        bounds: vec![(0, 3, 3), (1, 3, 3)],
        delivered: Some(vec![(4, 0, 2), (5, 1, 3), (10, 1, 1)]),
    }
}

/// All four links have node 2. Flow 0 is first by its number and sends each link three times, in slots 0 to 5; flow 1
/// follows in slots 6 and 7. S is 6 and 2, so both bounds are 8.
fn tries_beside_another() -> Named {
    Named {
        name: "tries above 1 beside another flow",
        text: "set\t3\nflow\t20\t20\t0\t3\t1\t2\t3\nflow\t20\t20\t0\t1\t4\t2\t5\n".into(),
        verdict: (true, true, 2),
        bounds: vec![(0, 8, 8), (1, 8, 8)],
        delivered: Some(vec![(5, 0, 6), (7, 1, 8)]),
    }
}

/// P11, as request 1 has it: two links of two tries, one after the other.
fn out_and_back_alone() -> Named {
    Named {
        name: "P11, a route out and back",
        text: "set\t1\nflow\t10\t4\t0\t2\t1\t2\t1\n".into(),
        verdict: (true, true, 1),
        bounds: vec![(0, 4, 4)],
        delivered: Some(vec![(3, 0, 4)]),
    }
}

/// All four links of flow 0 have node 2, and so has the one of flow 1: 4 + 1 and 1 + 4. Flow 0 goes first by its number.
fn out_and_back_beside_another() -> Named {
    Named {
        name: "a loop beside another flow",
        text: "set\t3\nflow\t20\t20\t0\t1\t1\t2\t3\t2\t1\nflow\t20\t20\t0\t1\t4\t2\n".into(),
        verdict: (true, true, 2),
        bounds: vec![(0, 5, 5), (1, 5, 5)],
        delivered: Some(vec![(3, 0, 4), (4, 1, 5)]),
    }
}

/// The link 1-2 stands twice in flow 0's route, and counts twice: S is 3, and flow 1's bound 1 + 3. Flow 0's is 3 + 1; its
/// remainder of 6 is gone once flow 1's entry has fallen to 4, 6 below the deadline, so the third round is the last. Flow
/// 1 waits for all of flow 0's links, and its delay is its bound.
fn a_link_again() -> Named {
    Named {
        name: "a link that stands twice in a route",
        text: "set\t3\nflow\t10\t6\t0\t1\t1\t2\t1\t2\nflow\t10\t10\t0\t1\t2\t9\n".into(),
        verdict: (true, true, 3),
        bounds: vec![(0, 4, 3), (1, 4, 4)],
        delivered: Some(vec![(2, 0, 3), (3, 1, 4)]),
    }
}

/// 16 links of four tries between nodes 1 and 2, as many as a flow can have: 64 of 64 slots.
fn two_nodes_to_and_fro() -> Named {
    Named {
        name: "17 nodes of two alternating ones",
        text: format!("set\t1\nflow\t64\t64\t0\t4{}\t1\n", "\t1\t2".repeat(8)),
        verdict: (true, true, 1),
        bounds: vec![(0, 64, 64)],
        delivered: Some(Vec::new()),
    }
}

/// Three loops over multiples of 511, 1-2-1-2, 3-4-3 and 2-3-2 times that: these numbers are alike once the quotient by
/// 512 is added to the remainder. Flows 0 and 1 have no node in common; of flow 2 both links touch both, and all of theirs
/// touch flow 2: 3 + 2 + (4 − 2) / 2, and 2 + 2 + (5 − 2) / 2, and 2 + 5. Flows 0 and 1 have both channels in slots 0 and
/// 1, flow 0 sends alone in slot 2 since node 1022 keeps flow 2 waiting, which has slots 3 and 4.
fn loops_alike() -> Named {
    let line = |nodes: &str| format!("flow\t20\t20\t0\t1\t{nodes}\n");
    let (one, two, three) = (line("511\t1022\t511\t1022"), line("1533\t2044\t1533"), line("1022\t1533\t1022"));
    Named {
        name: "loops over multiples of 511",
        text: format!("set\t3\n{one}{two}{three}"),
        verdict: (true, true, 2),
        bounds: vec![(0, 6, 6), (1, 5, 5), (2, 7, 7)],
        delivered: Some(vec![(1, 1, 2), (2, 0, 3), (4, 2, 5)]),
    }
}

/// A text with blanks for tabs and `;` for LF, as it is typed here.
pub fn typed(text: &str) -> String {
    text.replace(' ', "\t").replace(';', "\n")
}

/// Texts that are refused: what for, the text, and the refusal.
pub fn refused() -> Vec<(&'static str, String, Refusal)> {
    let flow = |fields: &str| format!("set\t1\nflow\t{fields}\n");
    let at = Refusal::in_field;
    vec![
        ("a 65th flow", format!("set\t1\n{}", "flow\t9\t9\t0\t1\t1\t2\n".repeat(65)), at(3, 66, 1)),
        ("period 0", flow("0\t1\t0\t1\t1\t2"), at(4, 2, 2)),
        ("deadline 0", flow("9\t0\t0\t1\t1\t2"), at(5, 2, 3)),
        ("a deadline above the period", flow("9\t10\t0\t1\t1\t2"), at(5, 2, 3)),
        ("tries 0", flow("9\t9\t0\t0\t1\t2"), at(6, 2, 5)),
        ("tries 5", flow("9\t9\t0\t5\t1\t2"), at(6, 2, 5)),
        ("no node", flow("9\t9\t0\t1"), at(7, 2, 0)),
        ("one node", flow("9\t9\t0\t1\t1"), at(7, 2, 0)),
        ("18 nodes", flow(&format!("99\t99\t0\t1{}", nodes(1, 1, 18))), at(7, 2, 0)),
        ("18 nodes of two alternating ones", flow(&format!("64\t64\t0\t4{}", "\t1\t2".repeat(9))), at(7, 2, 0)),
        ("18 nodes, the last two equal", flow(&format!("99\t99\t0\t1{}\t17", nodes(1, 1, 17))), at(7, 2, 0)),
        ("two equal nodes", flow("10\t4\t0\t1\t0\t0"), at(8, 2, 7)),
        ("two equal nodes first", flow("10\t4\t0\t2\t1\t1\t2"), at(8, 2, 7)),
        ("two equal nodes last", flow("10\t4\t0\t2\t1\t2\t2"), at(8, 2, 8)),
        ("two equal nodes between", flow("10\t9\t0\t1\t1\t2\t1\t1\t2\t1"), at(8, 2, 9)),
        ("two equal nodes, and C above D", flow("10\t1\t0\t1\t1\t2\t2"), at(8, 2, 8)),
        ("C one above D to and fro", flow(&format!("64\t63\t0\t4{}\t1", "\t1\t2".repeat(8))), at(9, 2, 0)),
        ("C one above D", flow("9\t3\t0\t2\t1\t2\t3"), at(9, 2, 0)),
    ]
}

/// First lines of request 3, each a whole text, as they are typed: number and field of the refusal. An empty field is two
/// blanks in a row.
const FIRST_LINES: [(&str, u8, usize); 17] = [
    ("", 1, 0),
    (";", 1, 1),
    ("set", 1, 0),
    ("set;", 1, 0),
    ("set 3", 1, 0),
    ("set ;", 1, 2),
    ("set x;", 1, 2),
    ("set 07;", 1, 2),
    ("set 3\r;", 1, 2),
    ("set 3 4;", 1, 3),
    ("set 3 ;", 1, 3),
    ("set x 4;", 1, 2),
    ("set 0;", 2, 2),
    ("set 0 x;", 1, 3),
    ("Set 3;", 1, 1),
    ("sets 3;", 1, 1),
    ("se", 1, 1),
];

/// Second lines of request 3. The route of forty nodes is too long, which the form is before.
const SECOND_LINES: [(&str, u8, usize); 22] = [
    ("flow;", 1, 0),
    ("flow", 1, 0),
    ("flowx 1;", 1, 1),
    (";", 1, 1),
    ("fl", 1, 1),
    ("flow 10 8 0;", 1, 0),
    ("flow 10 8 0 1;", 7, 0),
    ("flow 10 8 0 1 1 2", 1, 0),
    ("flow 10 8 0 x 1 2", 1, 5),
    ("flow 10 8 0 1 1  2;", 1, 7),
    ("flow 10 8 0 1 1 2 ;", 1, 8),
    ("flow 10 8 0 1 1 2 65536;", 1, 8),
    ("flow 0 8 0 1 1 2 x;", 1, 8),
    ("flow 0 8 0 1 1 2;", 4, 2),
    ("flow 10 0 0 1 1 2;", 5, 3),
    ("flow 10 11 0 1 1 2;", 5, 3),
    ("flow 10 8 0 5 1 2;", 6, 5),
    ("flow 10 8 0 1 1 1;", 8, 7),
    ("flow 10 8 0 1 1 2 2 2;", 8, 8),
    ("flow 10 8 0 1 1 2 1 1;", 8, 9),
    ("flow 10 8 0 1 1 2 3 4 5 6 7 8 9 1 2 3 4 5 6 7 8 9 1 2 3 4 5 6 7 8 9 1 2 3 4 5 6 7 8 9 1 2 3 4 x;", 1, 46),
    ("flow 10 8 0 1 1 2 3 4 5 6 7 8 9 1 2 3 4 5 6 7 8 9 1 2 3 4 5 6 7 8 9 1 2 3 4 5 6 7 8 9 1 2 3 4;", 7, 0),
];

/// Lines of request 3 behind 64 flows.
const LAST_LINES: [(&str, u8, usize); 3] =
    [("flow 9 9 0 1 1 2;", 3, 1), ("flow 0 8 0 1 1 2;", 3, 1), ("flow 0 8 0 1 1 x;", 1, 7)];

/// The texts of request 3, and what the reader answers.
pub fn fields() -> Vec<(String, Refusal)> {
    let crowd = format!("set 3;{}", "flow 9 9 0 1 1 2;".repeat(64));
    let behind = |before: &str, line: usize, (text, number, field): (&str, u8, usize)| {
        (typed(&format!("{before}{text}")), Refusal::in_field(number, line, field))
    };
    let first = FIRST_LINES.map(|row| behind("", 1, row));
    let second = SECOND_LINES.map(|row| behind("set 3;", 2, row));
    let last = LAST_LINES.map(|row| behind(&crowd, 66, row));
    first.into_iter().chain(second).chain(last).collect()
}
