//! Document 02, request 2, a table's lines: slot, flow, transmission number and offset, parted by one tab, ended by LF,
//! strictly rising by slot, then offset. Written from any table, and read.

use crate::read::number_at;
use crate::record::Refusal;
use crate::write::Written;

/// How many numbers a row of a table has.
pub const ROW: usize = 4;

/// The lines of a table at the head of a lent buffer. Up to three numbers behind the last whole row don't count, and no
/// order is tested. Refused with 10, it changes nothing.
pub fn write_table(table: &[u16], buffer: &mut [u8]) -> Written {
    let bytes = length_of(table);
    match buffer.get_mut(..bytes) {
        None => Written { refusal: Refusal::at(10, 0), bytes: 0 },
        Some(head) => {
            put_lines(table, head);
            Written { refusal: Refusal::NONE, bytes }
        }
    }
}

/// The lines of a table.
pub fn lines_of(table: &[u16]) -> Vec<u8> {
    let mut text = vec![0; length_of(table)];
    put_lines(table, &mut text);
    text
}

/// The numbers of whole rows.
fn whole(table: &[u16]) -> &[u16] {
    &table[..table.len() / ROW * ROW]
}

/// How many bytes the lines have: the digits, and a tab or LF behind each number.
fn length_of(table: &[u16]) -> usize {
    whole(table).iter().map(|&number| digits(number) + 1).sum()
}

/// How many digits a number has.
fn digits(number: u16) -> usize {
    1 + usize::from(number > 9) + usize::from(number > 99) + usize::from(number > 999) + usize::from(number > 9_999)
}

/// The lines into a buffer of just their length.
fn put_lines(table: &[u16], buffer: &mut [u8]) {
    let mut at = 0;
    for row in whole(table).chunks_exact(ROW) {
        for &number in row {
            at = put_number(buffer, at, number);
        }
        buffer[at - 1] = b'\n';
    }
}

/// A number and a tab at a place; answers the place behind them.
fn put_number(buffer: &mut [u8], at: usize, number: u16) -> usize {
    let end = at + digits(number);
    let mut rest = number;
    for digit in buffer[at..end].iter_mut().rev() {
        *digit = b'0' + (rest % 10) as u8;
        rest /= 10;
    }
    buffer[end] = b'\t';
    end + 1
}

/// Lines read into the head of a lent table, whose further numbers stay: 1 with the line for form or order, then 10 where
/// the rows don't fit. Refused, it changes nothing. Answers how many numbers it wrote.
pub fn read_table(text: &[u8], table: &mut [u16]) -> (Refusal, usize) {
    let numbers = match numbers_of(text) {
        Ok(numbers) => numbers,
        Err(line) => return (Refusal::at(1, line), 0),
    };
    match table.get_mut(..numbers.len()) {
        None => (Refusal::at(10, 0), 0),
        Some(head) => {
            head.copy_from_slice(&numbers);
            (Refusal::NONE, numbers.len())
        }
    }
}

/// The numbers of a text, or the first line that lacks its form or does not rise above the one before it.
fn numbers_of(text: &[u8]) -> Result<Vec<u16>, usize> {
    // a number and what follows it have two bytes at least
    let mut numbers = Vec::with_capacity(text.len() / 2);
    let (mut at, mut line, mut before) = (0, 0, None);
    while at < text.len() {
        line += 1;
        let (row, next) = row_at(text, at).ok_or(line)?;
        let place = Some((row[0], row[3]));
        if place <= before {
            return Err(line);
        }
        numbers.extend_from_slice(&row);
        (at, before) = (next, place);
    }
    Ok(numbers)
}

/// The row of the line at a place, and where the next line starts: three numbers with a tab behind each, one with LF.
fn row_at(text: &[u8], mut at: usize) -> Option<([u16; ROW], usize)> {
    let mut row = [0; ROW];
    for (field, number) in row.iter_mut().enumerate() {
        let (value, end) = number_at(text, at)?;
        let wanted = if field + 1 < ROW { b'\t' } else { b'\n' };
        if text.get(end) != Some(&wanted) {
            return None;
        }
        (*number, at) = (value, end + 1);
    }
    Some((row, at))
}
