//! Document 02, request 3: the field that the reader names beside a refusal, counted from 1. The whole line is split at its
//! tabs, whatever stands in it; how far the reader came is not asked.

use crate::read::number_at;
use crate::slip;

/// The first node's field: the word, T, D, a and κ stand before it.
const FIRST_NODE: usize = 6;

/// The field of a refusal of this number at this line, 0 where it names none. The text begins with the line. With a slip
/// it is one of the wrong ones.
pub fn named<const SLIP: u8>(number: u8, line: usize, text: &[u8]) -> usize {
    let field = match number {
        1 => first_bad(line, text),
        2 | 4 => 2,
        3 => 1,
        5 => 3,
        6 => 5,
        8 => standing_still(text),
        _ => 0,
    };
    match SLIP {
        slip::NONE => field,
        _ => slip::field::<SLIP>(number, line, text, field),
    }
}

/// The fields of the line that a text begins with: what its tabs part, up to its LF or the text's end. An empty line has
/// one, an empty text none.
pub(crate) fn fields(text: &[u8]) -> impl Iterator<Item = &[u8]> {
    let line = text.split(|&byte| byte == b'\n').next().unwrap_or_default();
    line.split(|&byte| byte == b'\t').filter(|_| !text.is_empty())
}

/// The first field that breaks the form: one that is not the line's word, a later one that is no number, and any third of
/// the first line. Missing numbers and a missing LF are no field.
fn first_bad(line: usize, text: &[u8]) -> usize {
    let word: &[u8] = if line == 1 { b"set" } else { b"flow" };
    let breaks = |place: usize, field: &[u8]| match place {
        1 => field != word,
        2 => !is_number(field),
        _ => line == 1 || !is_number(field),
    };
    (1..).zip(fields(text)).find(|&(place, field)| breaks(place, field)).map_or(0, |(place, _)| place)
}

fn is_number(field: &[u8]) -> bool {
    number_at(field, 0).is_some_and(|(_, end)| end == field.len())
}

/// The first node that equals the one just before it. The line has its form, so equal numbers are equal bytes.
fn standing_still(text: &[u8]) -> usize {
    let nodes: Vec<&[u8]> = fields(text).skip(FIRST_NODE - 1).collect();
    (1..nodes.len()).find(|&i| nodes[i] == nodes[i - 1]).map_or(0, |i| FIRST_NODE + i)
}
