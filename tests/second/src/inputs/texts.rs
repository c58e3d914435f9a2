//! Texts: good ones, ones with chosen faults in one line, ones with stray bytes, and ones with a very long line.

use super::{sets, Rng};
use crate::record::{Flow, Refusal, Set, MOST_FLOWS, MOST_NODES};
use crate::write::text_of;

/// A text with faults put into one line, and the refusal they ask for: the lowest of them at that line, with the field that
/// it was put into.
#[derive(Clone, Debug)]
pub struct Damaged {
    /// The text.
    pub text: Vec<u8>,
    /// What the reader must answer.
    pub refusal: Refusal,
}

/// Every choice of one or two faults that a line can have: 1 and 2 for the first line, all but 2 for a flow's line.
/// Two equal numbers stand for the fault alone.
pub fn pairs() -> Vec<[u8; 2]> {
    let mut pairs = vec![[2, 2], [1, 2]];
    for low in [1, 3, 4, 5, 6, 7, 8, 9] {
        for high in low..=9 {
            if high != 2 {
                pairs.push([low, high]);
            }
        }
    }
    pairs
}

/// The text of a good set.
pub fn good(rng: &mut Rng) -> Vec<u8> {
    text_of(&sets::any(rng))
}

/// A text whose first faulty line has these faults (one of `pairs`).
pub fn damaged(rng: &mut Rng, faults: [u8; 2]) -> Damaged {
    let set = if faults.contains(&3) { crowd(rng) } else { sets::any(rng) };
    let first = faults[1] == 2 || faults == [1, 1] && rng.once_in(4);
    let before = match (first, faults.contains(&3)) {
        (true, _) => 0,
        (_, true) => MOST_FLOWS + 1,
        _ => 1 + rng.below(usize::from(set.count).min(MOST_FLOWS - 1) + 1),
    };
    let lines = lines_of(&set);
    let mut text = lines[..before].concat();
    let (line, field) = if first { first_line(rng, faults) } else { flow_line(rng, faults) };
    let ended = line.last() == Some(&b'\n');
    text.extend_from_slice(&line);
    if ended && rng.once_in(2) {
        text.extend_from_slice(&lines[rng.below(lines.len())..].concat());
        let later: [&[u8]; 6] = [b"", b"\n", b"set\t0\n", b"flow\t0", b"x", b"flow\t9\t9\t0\t1\t5\t5\n"];
        text.extend_from_slice(rng.pick(&later));
    }
    Damaged { text, refusal: Refusal::in_field(faults[0].min(faults[1]), before + 1, field) }
}

/// How many fields a long line has: as many as the programs read at once, and more than 16 bits count.
pub const LONG: [usize; 2] = [8_000, 100_000];

/// A text whose second line has so many fields and is ended by this, with a bad one at this place; with none where it is 0,
/// and then the route is too long, or only the LF is missing.
fn long_line(count: usize, bad: usize, end: &str) -> Damaged {
    let mut fields = vec!["1"; count];
    fields[0] = "flow";
    if bad > 0 {
        fields[bad - 1] = "x";
    }
    let number = if bad > 0 || end.is_empty() { 1 } else { 7 };
    let text = format!("set\t1\n{}{end}", fields.join("\t")).into_bytes();
    Damaged { text, refusal: Refusal::in_field(number, 2, bad) }
}

/// Long lines with the bad field first, last, on either side of what 8 and 16 bits count, and nowhere; each with LF and
/// without.
pub fn long_lines() -> Vec<Damaged> {
    let places = [0, 1, 2, 5, 6, 22, 23, 255, 256, 7_999, 8_000, 65_535, 65_536, 65_537, 70_000, 99_999, 100_000];
    let wide = |count: usize| {
        let places = places.into_iter().filter(move |&bad| bad <= count);
        places.flat_map(move |bad| ["\n", ""].map(|end| long_line(count, bad, end)))
    };
    LONG.into_iter().flat_map(wide).collect()
}

/// A set of 64 flows, short ones, so that a 65th line can follow.
fn crowd(rng: &mut Rng) -> Set {
    let shape = sets::Shape {
        flows: (MOST_FLOWS, MOST_FLOWS),
        channels: (1, 16),
        nodes: (2, 3),
        pool: 50,
        tries: 1,
        periods: (2, 99),
        start: 9,
        loops: true,
    };
    sets::draw(rng, &shape)
}

/// The lines of a set's text, each with its LF.
fn lines_of(set: &Set) -> Vec<Vec<u8>> {
    text_of(set).split_inclusive(|&byte| byte == b'\n').map(<[u8]>::to_vec).collect()
}

/// A first line with fault 1, 2 or both, and the field of the lower one.
fn first_line(rng: &mut Rng, faults: [u8; 2]) -> (Vec<u8>, usize) {
    let map = if faults[1] == 2 { 0 } else { rng.within(1, 65_535) };
    let line = format!("set\t{map}\n").into_bytes();
    let short = [("", 0), ("\n", 1), ("set", 0), ("set\n", 0), ("set\t", 2), ("set\t\n", 2)];
    match (faults[0], rng.below(4)) {
        (1, 0) => ([&line[..line.len() - 1], rng.pick(&[&b"\t1\n"[..], b"\t0\n", b"\t\n"])].concat(), 3),
        (1, 1) if faults[1] == 1 => {
            let (line, field) = rng.pick(&short);
            (line.into(), field)
        }
        (1, _) => misform(rng, line, faults == [1, 1]),
        _ => (line, 2),
    }
}

/// A flow's line with these faults and none lower than the lowest of them, and that one's field.
fn flow_line(rng: &mut Rng, faults: [u8; 2]) -> (Vec<u8>, usize) {
    let (flow, route, later) = draft(rng, faults);
    let mut line = b"flow".to_vec();
    let head = [flow.period, flow.deadline, flow.start, flow.tries];
    for number in head.iter().chain(&route) {
        line.extend_from_slice(format!("\t{number}").as_bytes());
    }
    line.push(b'\n');
    if faults[0] != 1 {
        // of 3 to 9: the word, T, D, κ, none, the later node of the equal pair, none
        return (line, [1, 2, 3, 5, 0, 6 + later, 0][usize::from(faults[0] - 3)]);
    }
    if faults == [1, 1] && rng.once_in(4) {
        return (shorten(rng, &line), 0);
    }
    misform(rng, line, faults == [1, 1])
}

/// Tries and route of a line with these faults of 6 to 8, and the place of the equal pair's later node, 0 without one.
fn way(rng: &mut Rng, faults: [u8; 2]) -> (usize, Vec<u16>, usize) {
    let has = |fault| faults.contains(&fault);
    let tries = match rng.below(3) {
        _ if !has(6) => rng.within(1, 4),
        0 if !has(9) => 0,
        1 => 5,
        _ => rng.within(5, 65_535),
    };
    let nodes = match rng.below(3) {
        _ if !has(7) => rng.within(3, MOST_NODES),
        0 if !has(8) && !has(9) => rng.below(2),
        1 => MOST_NODES + 1,
        _ => rng.within(MOST_NODES + 1, 60),
    };
    let mut route: Vec<u16> = (0..nodes).map(|i| (i * 1000 + rng.below(1000)) as u16).collect();
    let returns = rng.once_in(2);
    for i in (2..nodes).filter(|_| returns) {
        // back to the node before the last; no node equals its neighbour by that
        if rng.once_in(3) {
            route[i] = route[i - 2];
        }
    }
    if !has(8) {
        return (tries, route, 0);
    }
    // the equal pair comes first, last, or anywhere; a node that returns may make a second one behind it
    let later = [1, nodes - 1, rng.within(1, nodes - 1)][rng.below(3)];
    route[later] = route[later - 1];
    (tries, route, later)
}

/// The numbers of a line with these faults of 4 to 9, and the place of the equal pair's later node. Each is put in so that it
/// undoes none before: tries and route, then the deadline below C, then the deadline above the period or 0, then the
/// period 0.
fn draft(rng: &mut Rng, faults: [u8; 2]) -> (Flow, Vec<u16>, usize) {
    let has = |fault| faults.contains(&fault);
    let (tries, route, later) = way(rng, faults);
    let c = route.len().saturating_sub(1) * tries;
    let period = rng.within(c.clamp(2, 60_000), 65_534);
    let deadline = if has(9) { rng.within(1, period.min(c - 1)) } else { rng.within(c.clamp(1, period), period) };
    let start = rng.word();
    let mut flow = Flow { period: period as u16, deadline: deadline as u16, start, ..Flow::default() };
    flow.tries = tries as u16;
    if has(5) {
        flow.deadline = match rng.below(2) {
            0 if !has(9) => flow.period + 1,
            0 if c > 2 => {
                flow.period = 1;
                c as u16 - 1
            }
            _ => 0,
        };
    }
    if has(4) {
        flow.period = 0;
    }
    (flow, route, later)
}

/// Damages a line's form: a wrong word, a bad number, stray bytes, or no LF; and the first field that breaks it. All its
/// numbers stay, for a second fault to be there still, unless this is to be the only one.
fn misform(rng: &mut Rng, line: Vec<u8>, only: bool) -> (Vec<u8>, usize) {
    let body = &line[..line.len() - 1];
    let rest = &body[body.iter().position(|&byte| byte == b'\t').unwrap_or(0)..];
    let fields = body.split(|&byte| byte == b'\t').count();
    match rng.below(7) {
        0 if rng.once_in(3) => ([if line[0] == b's' { "flow" } else { "set" }.as_bytes(), rest, b"\n"].concat(), 1),
        0 => ([rng.pick(&WORDS).as_bytes(), rest, b"\n"].concat(), 1),
        1 if only => spoil(rng, body),
        1 | 2 => {
            let end = rng.pick(&["\n", "\n", "\t7\n", "\tx\n", ""]);
            ([body, b"\t", rng.pick(&BAD_NUMBERS).as_bytes(), end.as_bytes()].concat(), fields + 1)
        }
        3 => {
            let (end, more) = rng.pick(&[("\r", 0), ("\t", 1), (" ", 0), ("\t\t1", 1), (",1", 0), ("\0", 0)]);
            ([body, end.as_bytes(), b"\n"].concat(), fields + more)
        }
        4 => ([rng.pick(&["\t", " ", "\n", "\u{feff}"]).as_bytes(), body, b"\n"].concat(), 1),
        5 => ([b"\n", &line[..]].concat(), 1),
        _ => (body.to_vec(), 0),
    }
}

/// Bad numbers in some fields of a line, mostly with LF behind; and the first of them.
fn spoil(rng: &mut Rng, body: &[u8]) -> (Vec<u8>, usize) {
    let mut fields: Vec<&[u8]> = body.split(|&byte| byte == b'\t').collect();
    let first = rng.within(1, fields.len() - 1);
    for (place, field) in fields.iter_mut().enumerate().skip(first) {
        if place == first || rng.once_in(3) {
            *field = rng.pick(&BAD_NUMBERS).as_bytes();
        }
    }
    ([&fields.join(&b'\t')[..], rng.pick(&[&b"\n"[..], b"\n", b""])].concat(), first + 1)
}

/// Words that no line has.
const WORDS: [&str; 9] = ["", "f", "se", "flows", "FLOW", "Set", "flow ", "sets", "s\tet"];

/// What is no number.
pub(super) const BAD_NUMBERS: [&str; 15] = [
    "",
    "00",
    "07",
    "007",
    "65536",
    "99999",
    "100000",
    "4294967297",
    "-1",
    "+1",
    "1 ",
    " 1",
    "0x1",
    "1a",
    "9999999999999999999999999999999999999999",
];

/// A line cut to fewer than four numbers.
fn shorten(rng: &mut Rng, line: &[u8]) -> Vec<u8> {
    let fields: Vec<&[u8]> = line[..line.len() - 1].split(|&byte| byte == b'\t').collect();
    [&fields[..rng.within(1, 4)].join(&b'\t')[..], b"\n"].concat()
}

/// A good text with a few bytes changed, lost or added anywhere: mostly refused, sometimes not.
pub fn stray(rng: &mut Rng) -> Vec<u8> {
    let mut text = good(rng);
    for _ in 0..rng.within(1, 3) {
        let at = rng.below(text.len());
        let byte = rng.pick(b"\t\n0123456789flowset\r \x00\xff-");
        match rng.below(4) {
            0 => text[at] = byte,
            1 => text.insert(at, byte),
            2 => text.truncate(at),
            _ => drop(text.remove(at)),
        }
        if text.is_empty() {
            break;
        }
    }
    text
}

/// A text of any of these kinds.
pub fn any(rng: &mut Rng) -> Vec<u8> {
    match rng.below(4) {
        0 => good(rng),
        1 => stray(rng),
        _ => {
            let faults = rng.pick(&pairs());
            damaged(rng, faults).text
        }
    }
}
