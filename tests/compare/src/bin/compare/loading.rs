//! Request 2: the superframe over texts and over records, a table's lines written and read, the radio channel. Lent tables and buffers are
//! exact, one short, one to three longer, or none. On a refusal nothing changes; otherwise what stands behind the table or the lines stays.

use crate::{calls, Tally};
use compare::{Fault, Record, Superframe};
use second::inputs::named::typed;
use second::inputs::{records, superframes, tables, texts, Rng};
use second::superframe::{superframe_of_text, superframe_size_of_text};
use second::table::lines_of;
use second::write::text_of;
use second::{Refusal, Set, REFUSALS};

/// What stands in a table and in a buffer before a call: no slot, flow, number or offset of a superframe is so high.
const BEFORE: u16 = 60_001;
const BEFORE_BYTE: u8 = 0x5a;
/// How many slots a table is repeated for, and up to which length of table.
const REPEATED: u32 = 40;
const SHORT: usize = 4_000;
/// From here on a hyper-period is long.
const LONG: u32 = 5_000;

/// Every call of request 2 over what one seed draws.
pub fn over_seed(tally: &mut Tally, rng: &mut Rng) {
    for _ in 0..8 {
        let set = superframes::any(rng);
        over_set(tally, rng, &set);
        let (lines, table) = (tables::lines(rng), tables::table(rng));
        over_lines(tally, rng, &lines);
        write(tally, rng, &table);
        let damage = rng.below(tables::DAMAGES);
        let damaged = tables::damaged(rng, damage);
        hold_damage(tally, &damaged);
        over_lines(tally, rng, &damaged.text);
        channels(tally, rng);
    }
    let mut record = records::record(rng);
    over_record(tally, rng, &record);
    if record.count > 0 && rng.once_in(2) {
        record.flows[0].start = 0;
        over_record(tally, rng, &record);
    }
    let text = texts::any(rng);
    over_text(tally, rng, &text);
}

/// A good set as text and as a record with anything where nothing counts, its table repeated, and the table through lines.
pub fn over_set(tally: &mut Tally, rng: &mut Rng, set: &Set) {
    tally.saw(set, Refusal::NONE);
    let text = text_of(set);
    over_text(tally, rng, &text);
    let mut untidy = *set;
    records::garbage(rng, &mut untidy);
    over_record(tally, rng, &untidy);
    let size = superframe_size_of_text(&text);
    if size.refusal.refuses() {
        return;
    }
    let mut table = vec![0; size.numbers];
    compare::text_superframe(&text, &mut table);
    write(tally, rng, &table);
    over_lines(tally, rng, &lines_of(&table));
    if table.len() <= SHORT {
        repeat(tally, rng, set, &text, &table, size.hyper);
    }
}

/// The proved table beside the proved slots, from the fresh state: each slot's lines are those of the rows at slot mod hyper-period, with the
/// proved channel of the true slot.
fn repeat(tally: &mut Tally, rng: &mut Rng, set: &Set, text: &[u8], table: &[u16], hyper: u32) {
    let slots = (3 * hyper).min(REPEATED + rng.below(40) as u32);
    let mut state = vec![0; 68];
    for t in 0..slots {
        let mut lines = [0; 576];
        let length = compare::text_slot(text, &mut state, &mut lines).length;
        let by_table: String = table.chunks_exact(4).filter(|row| u32::from(row[0]) == t % hyper).map(|row| {
            let flow = &set.flows[usize::from(row[1])];
            let link = usize::from(row[2] / flow.tries);
            let channel = compare::channel(set.map.into(), t, row[3].into());
            format!("send\t{t}\t{}\t{}\t{}\t{}\t{channel}\n", row[1], flow.route[link], flow.route[link + 1], row[2] % flow.tries)
        }).collect();
        let same = lines[..length] == *by_table.as_bytes();
        tally.hold("a repeated table", set, same, || format!("slot {t}: {by_table} and {}", String::from_utf8_lossy(&lines[..length])));
    }
    tally.repeated += 1;
}

/// How long the table is, and the table in rooms of every kind, of a text.
pub fn over_text(tally: &mut Tally, rng: &mut Rng, text: &[u8]) {
    let (set, other) = (second::read(text).set, superframe_size_of_text(text));
    calls::count(tally, other.refusal);
    hold(tally, "a superframe's size", &set, compare::text_superframe_size(text), other);
    // of a long one a room alone, to leave time for other sets
    let kept = if other.hyper > LONG { 1 } else { 4 };
    for room in rooms(rng, other.numbers).into_iter().skip(rng.below(5 - kept)).take(kept) {
        let (mut ours, mut theirs) = (vec![BEFORE; room], vec![BEFORE; room]);
        let a = compare::text_superframe(text, &mut ours);
        let b = superframe_of_text(text, &mut theirs);
        calls::count(tally, b.refusal);
        hold(tally, "a superframe", &set, a, b);
        hold_table(tally, "a superframe's table", &set, &ours, &theirs, b.numbers);
    }
}

/// The same of a record, good or not.
fn over_record(tally: &mut Tally, rng: &mut Rng, set: &Set) {
    let (record, other) = (Record::new(set), second::superframe_size(set));
    hold(tally, "a record's superframe's size", set, record.superframe_size(), other);
    let rooms = rooms(rng, other.numbers);
    let room = rng.pick(&rooms);
    let (mut ours, mut theirs) = (vec![BEFORE; room], vec![BEFORE; room]);
    let (a, b) = (record.superframe(&mut ours), second::superframe(set, &mut theirs));
    hold(tally, "a record's superframe", set, a, b);
    hold_table(tally, "a record's table", set, &ours, &theirs, b.numbers);
}

fn hold(tally: &mut Tally, what: &str, set: &Set, a: Superframe, b: second::Superframe) {
    tally.fault(what, set, a.fault, b.refusal);
    tally.hold(what, set, (a.hyper, a.numbers) == (b.hyper, b.numbers), || format!("{a:?}, {b:?}"));
}

/// Both tables are alike, and behind so many numbers they are as before.
fn hold_table(tally: &mut Tally, what: &str, set: &Set, ours: &[u16], theirs: &[u16], numbers: usize) {
    let first = || ours.iter().zip(theirs).position(|(a, b)| a != b);
    tally.hold(what, set, ours == theirs, || format!("place {:?} of {}", first(), ours.len()));
    tally.hold("what stands behind a table", set, ours[numbers..].iter().all(|&number| number == BEFORE), || format!("{numbers}"));
}

/// Rooms for so many numbers: exact, one less, one to three more, none.
fn rooms(rng: &mut Rng, numbers: usize) -> [usize; 4] {
    [numbers, numbers.saturating_sub(1), numbers + rng.within(1, 3), 0]
}

/// What is printed of a table or of lines: no more than their start.
fn head<T>(whole: &[T]) -> &[T] {
    &whole[..whole.len().min(400)]
}

/// Any table written as lines: in a buffer that is exact, one short, a few bytes longer, or none.
fn write(tally: &mut Tally, rng: &mut Rng, table: &[u16]) {
    let length = lines_of(table).len();
    for room in rooms(rng, length) {
        let (mut ours, mut theirs) = (vec![BEFORE_BYTE; room], vec![BEFORE_BYTE; room]);
        let (a, b) = (compare::table_write(table, &mut ours), second::write_table(table, &mut theirs));
        calls::count(tally, b.refusal);
        tally.fault("a table's writing", &Set::BLANK, a.fault(), b.refusal);
        let same = a.length == b.bytes && ours == theirs && ours[b.bytes..].iter().all(|&byte| byte == BEFORE_BYTE);
        tally.hold("a table's lines", &Set::BLANK, same, || format!("{a:?}, {b:?}, room {room}, {:?}", head(table)));
    }
}

/// Lines read into a table that is exact, one short, one to three longer, or none.
fn over_lines(tally: &mut Tally, rng: &mut Rng, lines: &[u8]) {
    let numbers = second::read_table(lines, &mut vec![0; lines.len()]).1;
    for room in rooms(rng, numbers) {
        let (mut ours, mut theirs) = (vec![BEFORE; room], vec![BEFORE; room]);
        let (a, (refusal, wrote)) = (compare::table_read(lines, &mut ours), second::read_table(lines, &mut theirs));
        calls::count(tally, refusal);
        tally.lines[usize::from(refusal.number)] += 1;
        tally.fault("a table's reading", &Set::BLANK, a.fault(), refusal);
        let same = a.length == wrote && ours == theirs && ours[wrote..].iter().all(|&number| number == BEFORE);
        tally.hold("the table read", &Set::BLANK, same, || format!("{a:?}, {wrote}, room {room}, {:?}", String::from_utf8_lossy(head(lines))));
    }
}

/// Lines with a chosen damage are refused for it by the proved reader, whatever the second planner says.
fn hold_damage(tally: &mut Tally, damaged: &texts::Damaged) {
    let a = compare::table_read(&damaged.text, &mut vec![0; damaged.text.len()]);
    let same = (a.refusal, a.line) == (damaged.refusal.number.into(), damaged.refusal.line);
    tally.hold("damaged lines", &Set::BLANK, same, || format!("{a:?}, {:?}", String::from_utf8_lossy(&damaged.text)));
}

/// The channel for any three numbers, maps and small offsets more often.
fn channels(tally: &mut Tally, rng: &mut Rng) {
    for _ in 0..8 {
        let [one, other, third] = [0; 3].map(|_| rng.bits() as u32);
        let map = rng.pick(&[one & 65_535, one & 65_535, 0, 1, 65_535, 65_536, 65_537, one]);
        let slot = rng.pick(&[other, 0, u32::MAX, u32::MAX - 1, 3_999_999_999]);
        let offset = rng.pick(&[third % 16, 0, u32::MAX, u32::MAX - 15, third]);
        let (a, b) = (compare::channel(map, slot, offset), second::channel(map, slot, offset));
        tally.hold("a channel", &Set::BLANK, a == b, || format!("{a} and {b} of {map}, {slot}, {offset}"));
    }
}

/// Sets with a name: those of the request, the longest tables, and every damage of lines.
pub fn named(tally: &mut Tally) {
    let mut rng = Rng::new(tally.seed);
    for (text, number, hyper, numbers) in named_sets() {
        let text = typed(text);
        let (a, set) = (compare::text_superframe_size(text.as_bytes()), second::read(text.as_bytes()).set);
        let wanted = Superframe { fault: Fault { refusal: number, line: 0, field: 0 }, hyper, numbers };
        tally.hold("a set of request 2", &set, a == wanted, || format!("{a:?}"));
        over_set(tally, &mut rng, &set);
    }
    for set in [superframes::f3(), superframes::most_rows(), superframes::many()] {
        over_set(tally, &mut rng, &set);
    }
    for damage in 0..tables::DAMAGES {
        for _ in 0..20 {
            let damaged = tables::damaged(&mut rng, damage);
            hold_damage(tally, &damaged);
            over_lines(tally, &mut rng, &damaged.text);
        }
    }
    for lines in [&b""[..], b"\n", b"0\t0\t0\t0\n", b"65535\t65535\t65535\t65535\n", b"0\t0\t0\t0\n0\t0\t0\t0\n", b"0\t0\t0\t0"] {
        over_lines(tally, &mut rng, lines);
    }
}

/// The request's sets, with blanks for tabs and `;` for LF: refusal, hyper-period, numbers.
fn named_sets() -> Vec<(&'static str, u32, u32, usize)> {
    vec![
        ("set 3;flow 10 8 0 1 1 2 3;flow 20 20 0 1 4 2 5;", 0, 20, 24),
        ("set 3;flow 10 3 0 1 1 2 3;flow 20 20 0 1 4 2 5;", 0, 20, 24),
        ("set 3;flow 10 10 0 1 1 2;flow 10 10 0 1 2 3;flow 10 10 0 1 4 5;", 0, 10, 12),
        ("set 7;flow 4 4 0 1 1 2;flow 6 6 0 2 2 3;", 0, 12, 28),
        ("set 7;flow 10 8 0 1 1 2 3;flow 20 20 0 1 4 2 5;", 0, 20, 24),
        ("set 1;", 0, 1, 0),
        ("set 15;flow 10 1 0 1 1 2;flow 10 1 0 1 3 4;flow 10 1 0 1 5 6;flow 10 1 0 1 7 8;flow 10 1 0 1 9 10;", 14, 0, 0),
        ("set 15;flow 65535 1 3 1 1 2;flow 10 1 0 1 3 4;flow 10 1 0 1 5 6;flow 10 1 0 1 7 8;flow 10 1 0 1 9 10;", 14, 0, 0),
        ("set 3;flow 65535 400 5 1 1 2 3;flow 2 2 0 1 8 9;", 15, 0, 0),
        ("set 3;flow 65535 400 0 1 1 2 3;flow 2 2 0 1 8 9;", 16, 0, 0),
        ("set 3;flow 10 8 0 1 1 2 3;flow 20 20 1 1 4 2 5;", 15, 0, 0),
        ("set 3;flow 65535 400 0 1 1 2 3;flow 5 5 0 1 8 9;", 0, 65_535, 52_436),
        ("set 3;flow 32769 400 0 1 1 2;flow 2 2 0 1 8 9;", 16, 0, 0),
        ("set 3;flow 2 2 0 1 8 9;flow 32769 400 0 1 1 2;", 16, 0, 0),
    ]
}

/// Whether lines were read, refused for their form and refused for room.
pub fn every_line(seen: &[u64; REFUSALS]) -> bool {
    [0, 1, 10].iter().all(|&number| seen[number] > 0)
}
