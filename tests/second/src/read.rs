//! Document 01, "The flow set" and "Refusal numbers": the reader, in one pass over the text.

use crate::check::fault;
use crate::field;
use crate::record::{Flow, Refusal, Set, MOST_FLOWS, MOST_NODES};
use crate::slip;

/// How many numbers of a line are kept: T, D, a, κ and the nodes of the longest route. Further ones are only counted.
const KEPT: usize = 4 + MOST_NODES;

/// What the reader answers: the set, or a refusal with the blank set.
#[derive(Clone, Copy, Debug, PartialEq, Eq)]
pub struct Read {
    /// The refusal of the first faulty line, none where the text is accepted.
    pub refusal: Refusal,
    /// The set read, its unused entries 0; the blank set where refused.
    pub set: Set,
}

/// The reader: the first faulty line decides, and within it the lowest of 1 to 9 that applies.
pub fn read(text: &[u8]) -> Read {
    read_with::<{ slip::NONE }>(text)
}

/// The same with one of the wrong rules for the field put in for the tests of the tests.
pub fn read_with<const SLIP: u8>(text: &[u8]) -> Read {
    let mut read = Read { refusal: Refusal::NONE, set: Set::BLANK };
    if let Err(Faulty { number, line, at }) = fill(text, &mut read.set) {
        let field = field::named::<SLIP>(number, line, &text[at..]);
        read = Read { refusal: Refusal::in_field(number, line, field), set: Set::BLANK };
    }
    read
}

/// The first faulty line: its fault, its number and where it starts.
struct Faulty {
    number: u8,
    line: usize,
    at: usize,
}

/// Reads line by line into the set; what stands after a faulty line is never looked at.
fn fill(text: &[u8], set: &mut Set) -> Result<(), Faulty> {
    let faulty = |number| Faulty { number, line: 1, at: 0 };
    let first = line_at(text, 0, b"set").filter(|line| line.count == 1).ok_or(faulty(1))?;
    if first.numbers[0] == 0 {
        return Err(faulty(2));
    }
    set.map = first.numbers[0];
    let mut at = first.next;
    while at < text.len() {
        let k = usize::from(set.count);
        let faulty = |number| Faulty { number, line: k + 2, at };
        let line = line_at(text, at, b"flow").filter(|line| line.count >= 4).ok_or(faulty(1))?;
        if k == MOST_FLOWS {
            return Err(faulty(3));
        }
        let flow = flow_of(&line);
        let fault = fault(&flow);
        if fault != 0 {
            return Err(faulty(fault));
        }
        set.flows[k] = flow;
        set.count += 1;
        at = line.next;
    }
    Ok(())
}

/// A line of the right form: its numbers, how many they are, and where the next line starts.
struct Line {
    numbers: [u16; KEPT],
    count: usize,
    next: usize,
}

/// The line at a place, if it has this word, then numbers each after one tab, then LF. Everything else is a fault 1,
/// the lowest there is, so the first bad byte may end the search.
fn line_at(text: &[u8], at: usize, word: &[u8]) -> Option<Line> {
    let mut line = Line { numbers: [0; KEPT], count: 0, next: at + word.len() };
    if !text[at..].starts_with(word) {
        return None;
    }
    while text.get(line.next) == Some(&b'\t') {
        let (value, next) = number_at(text, line.next + 1)?;
        if line.count < KEPT {
            line.numbers[line.count] = value;
        }
        line.count += 1;
        line.next = next;
    }
    if text.get(line.next) != Some(&b'\n') {
        return None;
    }
    line.next += 1;
    Some(line)
}

/// A number and the place after it: decimal, no sign, no leading zero, at most 65,535. It stops at the first digit
/// that passes the limit, so forty digits overflow nothing.
pub(crate) fn number_at(text: &[u8], from: usize) -> Option<(u16, usize)> {
    let mut value = 0u32;
    let mut at = from;
    while let Some(byte) = text.get(at).filter(|byte| byte.is_ascii_digit()) {
        value = value * 10 + u32::from(byte - b'0');
        if value > 65_535 {
            return None;
        }
        at += 1;
    }
    let digits = at - from;
    if digits == 0 || digits > 1 && text[from] == b'0' {
        return None;
    }
    Some((value as u16, at))
}

/// The flow of a line with at least four numbers. A node count beyond 16 bits stays above 17.
fn flow_of(line: &Line) -> Flow {
    let nodes = line.count - 4;
    let mut flow = Flow {
        period: line.numbers[0],
        deadline: line.numbers[1],
        start: line.numbers[2],
        tries: line.numbers[3],
        nodes: nodes.min(usize::from(u16::MAX)) as u16,
        route: [0; MOST_NODES],
    };
    let kept = nodes.min(MOST_NODES);
    flow.route[..kept].copy_from_slice(&line.numbers[4..4 + kept]);
    flow
}
