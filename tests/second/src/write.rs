//! Document 01, "The flow set" and refusal 10: the writer, and how numbers are written everywhere.

use crate::check::check;
use crate::record::{Refusal, Set};

/// What a writer answers: a refusal, or how many bytes of the lent buffer are its text.
#[derive(Clone, Copy, Debug, Default, PartialEq, Eq)]
pub struct Written {
    /// The refusal, none where the text was written.
    pub refusal: Refusal,
    /// The bytes written; 0 where refused.
    pub bytes: usize,
}

/// The writer: the set's text at the head of the buffer. It changes only the bytes of its text; refused (the record's
/// own refusals, then 10 where the buffer is shorter than the text) it changes none.
pub fn write(set: &Set, buffer: &mut [u8]) -> Written {
    let refusal = check(set);
    if refusal.refuses() {
        return Written { refusal, bytes: 0 };
    }
    lend(&text_of(set), buffer)
}

/// Copies a text into a lent buffer, or refuses with 10 and leaves the buffer alone.
pub fn lend(text: &[u8], buffer: &mut [u8]) -> Written {
    match buffer.get_mut(..text.len()) {
        None => Written { refusal: Refusal::at(10, 0), bytes: 0 },
        Some(head) => {
            head.copy_from_slice(text);
            Written { refusal: Refusal::NONE, bytes: text.len() }
        }
    }
}

/// The text of a good record, used entries only.
pub fn text_of(set: &Set) -> Vec<u8> {
    let mut text = Vec::with_capacity(10 + 127 * set.used().len() + BLOCK);
    put_line(&mut text, b"set", &[i64::from(set.map)]);
    for flow in set.used() {
        text.extend_from_slice(b"flow");
        for &number in [flow.period, flow.deadline, flow.start, flow.tries].iter().chain(flow.used()) {
            put_field(&mut text, i64::from(number));
        }
        text.push(b'\n');
    }
    text
}

/// A line: its word and its numbers, parted by one tab, ended by LF.
pub fn put_line(text: &mut Vec<u8>, word: &[u8], numbers: &[i64]) {
    text.extend_from_slice(word);
    for &number in numbers {
        put_field(text, number);
    }
    text.push(b'\n');
}

/// How many bytes a field is made in: a tab, a sign and the digits of any number fit.
const BLOCK: usize = 24;

/// The two digits of each number below 100.
const PAIRS: [[u8; 2]; 100] = {
    let mut pairs = [[0; 2]; 100];
    let mut number = 0;
    while number < 100 {
        pairs[number] = [b'0' + number as u8 / 10, b'0' + number as u8 % 10];
        number += 1;
    }
    pairs
};

/// A tab and a number in decimal, a negative one with a leading `-`. The field is made in a block that always has the
/// same length, two digits at a time from the last, and the block's rest is cut off the text again: that is quicker
/// than to append a few bytes.
fn put_field(text: &mut Vec<u8>, number: i64) {
    let mut block = [b'\t'; BLOCK];
    let mut first = 1;
    if number < 0 {
        block[first] = b'-';
        first += 1;
    }
    let mut rest = number.unsigned_abs();
    let end = first + rest.max(1).ilog10() as usize + 1;
    let mut at = end;
    while rest >= 10 {
        at -= 2;
        block[at..at + 2].copy_from_slice(&PAIRS[(rest % 100) as usize]);
        rest /= 100;
    }
    if at > first {
        block[first] = b'0' + rest as u8;
    }
    let length = text.len() + end;
    text.extend_from_slice(&block);
    text.truncate(length);
}
