//! A table's lines, written and read: every damage, both round trips, rooms of every length.

use crate::definition;
use crate::loading::{P1_LINES, P1_ROWS};
use second::inputs::{superframes, tables, Rng};
use second::table::lines_of;
use second::{read_table, superframe, superframe_size, write_table, Refusal, Written};

/// The refusal of lines read into a table that is long enough, and how many numbers they have.
fn read(text: &[u8]) -> (u8, usize, usize) {
    let mut table = vec![7; text.len()];
    let (refusal, numbers) = read_table(text, &mut table);
    assert!(table[numbers..].iter().all(|&number| number == 7));
    (refusal.number, refusal.line, numbers)
}

#[test]
fn p1_is_written_and_read_byte_for_byte() {
    let (rows, lines) = (P1_ROWS.concat(), P1_LINES.as_bytes());
    let (mut buffer, mut table) = (vec![b'.'; lines.len() + 2], vec![7; rows.len() + 3]);
    assert_eq!(write_table(&rows, &mut buffer), Written { refusal: Refusal::NONE, bytes: lines.len() });
    assert_eq!(buffer, [lines, b".."].concat());
    assert_eq!(read_table(lines, &mut table), (Refusal::NONE, rows.len()));
    assert_eq!(table, [&rows[..], &[7, 7, 7]].concat());
}

#[test]
fn an_empty_table_is_an_empty_text() {
    assert_eq!(write_table(&[], &mut []), Written::default());
    assert_eq!(write_table(&[1, 2, 3], &mut []), Written::default());
    assert_eq!(read_table(b"", &mut []), (Refusal::NONE, 0));
}

/// Lines after a good one that are refused as line 2.
const BAD: [&str; 22] = [
    "\n",
    "6\t1\t1\n",
    "6\t1\t1\t1\t1\n",
    "6\t1\t1\t1",
    "6\t1\t1\t\n",
    "6\t1\t\t1\n",
    "6\t\t1\t1\n",
    "\t6\t1\t1\t1\n",
    "6\t1\t1\t1\t\n",
    "6\t1\t1\t65536\n",
    "6\t01\t1\t1\n",
    "6\t1\t00\t1\n",
    "6\t-1\t1\t1\n",
    "+6\t1\t1\t1\n",
    "6 1 1 1\n",
    "6\t1\t1\t1\r\n",
    "row\t6\t1\t1\t1\n",
    "6\t1\t1\t99999999999999999999999999999999999999999\n",
    "5\t1\t1\t5\n",
    "5\t9\t9\t4\n",
    "4\t9\t9\t9\n",
    "4\t1\t1\t0\n5\t1\t1\t6\n",
];

#[test]
fn a_line_without_form_or_order_is_1() {
    for bad in BAD {
        assert_eq!(read(format!("5\t1\t1\t5\n{bad}").as_bytes()), (1, 2, 0), "{bad:?}");
    }
    for good in ["5\t0\t0\t6\n", "6\t0\t0\t0\n", "65535\t65535\t65535\t65535\n"] {
        assert_eq!(read(format!("5\t1\t1\t5\n{good}").as_bytes()), (0, 0, 8), "{good:?}");
    }
    // the first line has none before it
    assert_eq!((read(b"0\t0\t0\t0\n"), read(b"0\t0\t0\n"), read(b"\n")), ((0, 0, 4), (1, 1, 0), (1, 1, 0)));
    // the first faulty line decides
    assert_eq!(read(b"0\t0\t0\t0\n1\t0\t0\t0\n1\t0\t0\t0\nx\n"), (1, 3, 0));
}

#[test]
fn every_damage_is_1_at_its_line() {
    let mut rng = Rng::new(111);
    let mut lines = [0; 3];
    for damage in 0..tables::DAMAGES {
        for _ in 0..300 {
            let damaged = tables::damaged(&mut rng, damage);
            let told = String::from_utf8_lossy(&damaged.text).into_owned();
            assert_eq!(read(&damaged.text), (1, damaged.refusal.line, 0), "damage {damage} of {told:?}");
            // a bad line behind the table's end is 1, not 10
            assert_eq!(read_table(&damaged.text, &mut []).0, damaged.refusal);
            lines[damaged.refusal.line.min(3) - 1] += 1;
        }
    }
    assert!(lines.iter().all(|&times| times > 300), "{lines:?}");
}

#[test]
fn lines_are_read_as_the_definition_says() {
    let (mut rng, mut good) = (Rng::new(112), 0);
    for _ in 0..20_000 {
        let text = tables::lines(&mut rng);
        let mut table = vec![0; text.len()];
        let found = read_table(&text, &mut table);
        match definition::rows_of_lines(&text) {
            Err(line) => assert_eq!(found, (Refusal::at(1, line), 0)),
            Ok(rows) => {
                let numbers: Vec<i64> = table[..found.1].iter().map(|&number| number.into()).collect();
                assert_eq!((found.0, numbers), (Refusal::NONE, rows.concat()));
                good += 1;
            }
        }
    }
    assert!((8_000..18_000).contains(&good), "{good}");
}

#[test]
fn an_accepted_text_read_and_written_again_has_the_same_bytes() {
    let mut rng = Rng::new(113);
    for _ in 0..5_000 {
        let text = tables::lines(&mut rng);
        let mut table = vec![0; text.len()];
        let (refusal, numbers) = read_table(&text, &mut table);
        if !refusal.refuses() {
            assert_eq!(lines_of(&table[..numbers]), text);
        }
    }
}

#[test]
fn a_superframe_goes_through_lines_unharmed() {
    let mut rng = Rng::new(114);
    for _ in 0..1_000 {
        let set = superframes::any(&mut rng);
        let mut table = vec![0; superframe_size(&set).numbers];
        superframe(&set, &mut table);
        let (text, mut again) = (lines_of(&table), vec![7; table.len()]);
        assert_eq!(read_table(&text, &mut again), (Refusal::NONE, table.len()));
        assert_eq!(again, table);
    }
}

#[test]
fn writing_takes_any_table() {
    let (mut rng, mut falling, mut left) = (Rng::new(115), 0, 0);
    for _ in 0..5_000 {
        let table = tables::table(&mut rng);
        let whole = &table[..table.len() / 4 * 4];
        let fields = |row: &[u16]| row.iter().map(u16::to_string).collect::<Vec<_>>().join("\t");
        let wanted: String = whole.chunks(4).map(|row| fields(row) + "\n").collect();
        assert_eq!(lines_of(&table), wanted.as_bytes());
        falling += usize::from(read(wanted.as_bytes()).0 == 1);
        left += usize::from(whole.len() < table.len());
    }
    assert!(falling > 500 && left > 1_000, "{falling} {left}");
}

#[test]
fn rooms_on_either_side_of_what_is_written() {
    let mut rng = Rng::new(116);
    for _ in 0..2_000 {
        let table = tables::table(&mut rng);
        let text = lines_of(&table);
        for room in [0, text.len().saturating_sub(1), text.len(), text.len() + 1] {
            let mut buffer = vec![b'.'; room];
            let written = write_table(&table, &mut buffer);
            let (number, bytes) = if room < text.len() { (10, 0) } else { (0, text.len()) };
            assert_eq!(written, Written { refusal: Refusal::at(number, 0), bytes });
            assert_eq!(buffer[..bytes], text[..bytes]);
            assert!(buffer[bytes..].iter().all(|&byte| byte == b'.'));
        }
        let text = tables::lines(&mut rng);
        let Ok(rows) = definition::rows_of_lines(&text) else { continue };
        let numbers = 4 * rows.len();
        for room in [0, numbers.saturating_sub(1), numbers, numbers + 1, numbers + 2, numbers + 3] {
            let mut table = vec![60_000; room];
            let (refusal, wrote) = read_table(&text, &mut table);
            assert_eq!((refusal.number, wrote), if room < numbers { (10, 0) } else { (0, numbers) });
            assert!(table[wrote..].iter().all(|&number| number == 60_000));
        }
    }
}
