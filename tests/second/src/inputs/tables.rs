//! Tables of rows, and their lines: good ones, ones with a chosen damage in one line, and ones with stray bytes.

use super::texts::{Damaged, BAD_NUMBERS};
use super::Rng;
use crate::record::Refusal;
use crate::table::{lines_of, ROW};

/// A number of any width.
fn number(rng: &mut Rng) -> u16 {
    match rng.below(3) {
        0 => rng.below(16) as u16,
        1 => rng.pick(&[0, 9, 10, 99, 100, 999, 1_000, 9_999, 10_000, 65_534, 65_535]),
        _ => rng.word(),
    }
}

/// Rows that rise strictly by slot, then offset, with anything for flow and number; at most so many.
fn rows(rng: &mut Rng, most: usize) -> Vec<[u16; ROW]> {
    let wanted = rng.within(0, most);
    let step = rng.pick(&[1, 3, 200, 9_000]);
    let (mut slot, mut offset) = (rng.pick(&[0, 0, 7, 65_000]), rng.pick(&[0, 0, 3, 65_530]));
    let mut rows = Vec::new();
    while rows.len() < wanted && slot <= 65_535 && offset <= 65_535 {
        rows.push([slot as u16, number(rng), number(rng), offset as u16]);
        if rng.once_in(2) {
            offset += rng.within(1, step);
        } else {
            let far = rng.below(65_536);
            (slot, offset) = (slot + rng.within(1, step), rng.pick(&[0, 0, 1, far]));
        }
    }
    rows
}

/// A table of any numbers: mostly rows that rise, sometimes rows that fall, and often with up to three numbers left over.
pub fn table(rng: &mut Rng) -> Vec<u16> {
    let mut rows = rows(rng, 12);
    if rng.once_in(3) {
        rows.reverse();
    }
    let mut table = rows.concat();
    for _ in 0..rng.pick(&[0, 0, 1, 2, 3]) {
        table.push(number(rng));
    }
    table
}

/// What a line can lack, by number: three fields or five, a bad number, a tab too many between, before or behind the
/// numbers, no LF, nothing at all in it, CR, a blank for a tab, a word, a stray byte, two lines in one; and then an order:
/// the same slot and offset as before, a lower slot, the same slot and a lower offset.
pub const DAMAGES: usize = 16;

/// Lines whose first faulty one has this damage.
pub fn damaged(rng: &mut Rng, damage: usize) -> Damaged {
    let good = rows(rng, 8);
    let before = rng.within(0, good.len());
    let mut text = lines_of(&good[..before].concat());
    let line = damaged_line(rng, damage, good[..before].last().copied());
    // an order needs a line before it
    let first = damage >= ORDER && before == 0;
    if first {
        text = lines_of(&[9, 1, 1, 9]);
    }
    text.extend_from_slice(&line);
    if line.last() == Some(&b'\n') && rng.once_in(2) {
        text.extend_from_slice(&lines_of(&good[before..].concat()));
        text.extend_from_slice(rng.pick(&[&b""[..], b"\n", b"x", b"0\t0\t0\t0\n", b"0\t0\t0"]));
    }
    Damaged { text, refusal: Refusal::at(1, before + usize::from(first) + 1) }
}

/// From here on a damage is one of order.
const ORDER: usize = 13;

/// A line with a damage, after this row; after 9, 1, 1, 9 where there is none and one is needed.
fn damaged_line(rng: &mut Rng, damage: usize, last: Option<[u16; ROW]>) -> Vec<u8> {
    let [slot, .., offset] = last.unwrap_or([9, 1, 1, 9]);
    let (flow, number) = (number(rng), number(rng));
    let fields = [65_535, flow, number, 65_535].map(|number| number.to_string());
    let joined = |fields: &[String]| fields.join("\t").into_bytes();
    let ended = |line: Vec<u8>, end: &[u8]| [&line[..], end].concat();
    match damage {
        0 => ended(joined(&fields[..rng.within(1, 3)]), b"\n"),
        1 => ended(joined(&fields), rng.pick(&[&b"\t0\n"[..], b"\t1\t2\n", b"\t65535\n"])),
        2 => {
            let mut fields = fields;
            fields[rng.below(ROW)] = rng.pick(&BAD_NUMBERS).to_string();
            ended(joined(&fields), b"\n")
        }
        3 => {
            let gap = rng.within(1, 3);
            [joined(&fields[..gap]), joined(&fields[gap..])].join(&b"\t\t"[..]).into_iter().chain(*b"\n").collect()
        }
        4 => ended(b"\t".to_vec(), &ended(joined(&fields), b"\n")),
        5 => ended(joined(&fields), b"\t\n"),
        6 => joined(&fields),
        7 => b"\n".to_vec(),
        8 => ended(joined(&fields), b"\r\n"),
        9 => fields.join(rng.pick(&[" ", "  ", ","])).into_bytes().into_iter().chain(*b"\n").collect(),
        10 => ended(rng.pick(&[&b"row\t"[..], b"send\t", b"\xef\xbb\xbf"]).to_vec(), &ended(joined(&fields), b"\n")),
        11 => {
            let mut line = ended(joined(&fields), b"\n");
            line.insert(rng.below(line.len() - 1), rng.pick(b" \x00\xff-+x\r/:"));
            line
        }
        12 => ended(joined(&fields).repeat(2), b"\n"),
        13 => lines_of(&[slot, flow, number, offset]),
        14 => lines_of(&[
            rng.below(usize::from(slot).max(1)) as u16,
            flow,
            number,
            if slot == 0 { offset } else { 65_535 },
        ]),
        _ => lines_of(&[slot, flow, number, rng.below(usize::from(offset).max(1)) as u16]),
    }
}

/// Good lines with a few bytes changed, lost or added anywhere: mostly refused, sometimes not.
fn stray(rng: &mut Rng) -> Vec<u8> {
    let mut text = lines_of(&rows(rng, 8).concat());
    for _ in 0..rng.within(1, 3) {
        let at = rng.below(text.len() + 1);
        let byte = rng.pick(b"\t\n0123456789\r \x00\xff-");
        match rng.below(4) {
            0 => text.insert(at, byte),
            1 => text.truncate(at),
            2 if at < text.len() => text[at] = byte,
            _ if at < text.len() => drop(text.remove(at)),
            _ => {}
        }
    }
    text
}

/// Lines of any of these kinds.
pub fn lines(rng: &mut Rng) -> Vec<u8> {
    match rng.below(4) {
        0 | 1 => lines_of(&rows(rng, 12).concat()),
        2 => stray(rng),
        _ => {
            let damage = rng.below(DAMAGES);
            damaged(rng, damage).text
        }
    }
}
