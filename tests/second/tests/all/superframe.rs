//! Request 2, the superframe: the tables and refusals of its sets, what holds of every table, lent tables of every length.

use crate::checks::{set_of, P1_TEXT, PAPER, RIGHT};
use crate::loading::{self, F2_TEXT, LOADED, P1_LINES, P1_ROWS};
use second::inputs::named::typed;
use second::inputs::{records, superframes, texts, Rng};
use second::superframe::{superframe_of_text, superframe_size_of_text};
use second::table::lines_of;
use second::write::text_of;
use second::{channel, check, read, superframe, superframe_size, superframe_text, Refusal, Superframe, REFUSALS};

/// A refusal without a line.
fn refused(number: u8) -> Superframe {
    Superframe { refusal: Refusal::at(number, 0), ..Superframe::default() }
}

/// What is answered of a text, with no table and with one that is long enough for it.
fn answered(text: &str) -> Superframe {
    let size = superframe_size_of_text(text.as_bytes());
    let mut table = vec![7; size.numbers + 5];
    assert_eq!(superframe_of_text(text.as_bytes(), &mut table), size, "{text}");
    assert!(table[size.numbers..].iter().all(|&number| number == 7));
    size
}

#[test]
fn the_tables_of_the_requests_sets_are_as_written() {
    loading::paper(RIGHT).unwrap();
    for loaded in &LOADED {
        let (rows, set) = (loaded.rows.concat(), set_of(loaded.text));
        let answer = Superframe { refusal: Refusal::NONE, hyper: loaded.hyper, numbers: rows.len() };
        assert_eq!(answered(loaded.text), answer, "{}", loaded.name);
        assert_eq!((superframe_size(&set), superframe_size_of_text(loaded.text.as_bytes())), (answer, answer));
        for more in 0..4 {
            let (mut table, mut again) = (vec![7; rows.len() + more], vec![7; rows.len() + more]);
            assert_eq!(superframe_of_text(loaded.text.as_bytes(), &mut table), answer);
            assert_eq!(superframe(&set, &mut again), answer);
            assert_eq!(
                (&table[..rows.len()], &table[rows.len()..]),
                (&rows[..], &[7, 7, 7][..more]),
                "{}",
                loaded.name
            );
            assert_eq!(table, again);
        }
    }
}

#[test]
fn room_is_asked_for_the_whole_table() {
    // P1 has 24 numbers; up to 23 are too few, whatever rows they could hold.
    for room in [0, 1, 4, 20, 22, 23] {
        let mut table = vec![7; room];
        assert_eq!(superframe_of_text(P1_TEXT.as_bytes(), &mut table), refused(10));
        assert!(table.iter().all(|&number| number == 7));
    }
    let mut table = [7; 24];
    assert_eq!(superframe_of_text(P1_TEXT.as_bytes(), &mut table).numbers, 24);
    assert_eq!(table[..], P1_ROWS.concat());
    // No flows need no room.
    assert_eq!(superframe_of_text(b"set\t1\n", &mut []), Superframe { hyper: 1, ..Superframe::default() });
}

/// P3, the same with a start, and with a period that makes the hyper-period astronomical too.
#[test]
fn refusals_14_15_and_16_come_in_this_order() {
    let third = PAPER[2].text;
    assert_eq!(answered(third), refused(14));
    assert_eq!(answered(&third.replacen("\t10\t1\t0\t", "\t10\t1\t3\t", 1)), refused(14));
    assert_eq!(answered(&third.replacen("\t10\t1\t0\t", "\t65535\t1\t3\t", 1)), refused(14));
    let two = |start: u16| typed(&format!("set 3;flow 65535 400 {start} 1 1 2 3;flow 2 2 0 1 8 9;"));
    assert_eq!((answered(&two(5)), answered(&two(0))), (refused(15), refused(16)));
    // the start in the second flow
    assert_eq!(answered(&typed("set 3;flow 10 8 0 1 1 2 3;flow 20 20 1 1 4 2 5;")), refused(15));
    // the set's own refusals come first, and 10 last
    let nine = typed("set 1;flow 10 3 5 2 1 2 3;");
    assert_eq!(answered(&nine), Superframe { refusal: Refusal::at(9, 2), ..Superframe::default() });
    for (text, number) in [(third, 14), (&two(5), 15), (&two(0), 16), (P1_TEXT, 10)] {
        assert_eq!(superframe_of_text(text.as_bytes(), &mut []), refused(number));
    }
}

/// No set has a hyper-period of 65,536 or 65,537: no period has 2¹⁶ in it, and 65,537 is prime. 65,535 and 65,538 are the
/// nearest.
#[test]
fn hyper_periods_on_either_side_of_the_limit() {
    let set = typed("set 3;flow 65535 400 0 1 1 2 3;flow 5 5 0 1 8 9;");
    assert_eq!(answered(&set), Superframe { refusal: Refusal::NONE, hyper: 65_535, numbers: 4 * 13_109 });
    let two = |one: u16, other: u16| typed(&format!("set 3;flow {one} {one} 0 1 1 2;flow {other} {other} 0 1 8 9;"));
    assert_eq!(answered(&two(32_769, 2)), refused(16));
    assert_eq!(answered(&two(2, 32_769)), refused(16));
    assert_eq!(answered(&two(65_535, 65_534)), refused(16));
    assert_eq!(answered(&two(65_534, 2)).hyper, 65_534);
    // 64 large periods without much in common: nothing overflows on the way
    let flows: String = (0..64).map(|k| format!("flow {0} {0} 0 1 {k} {1};", 65_535 - k, 100 + k)).collect();
    assert_eq!(answered(&typed(&format!("set 65535;{flows}"))), refused(16));
}

#[test]
fn the_longest_tables_are_filled() {
    let sets = [
        (superframes::many(), 65_520, 216_387),
        (superframes::f3(), 65_535, 983_026),
        (superframes::most_rows(), 65_532, 1_032_130),
    ];
    for (set, hyper, rows) in sets {
        let answer = Superframe { refusal: Refusal::NONE, hyper, numbers: 4 * rows };
        let mut table = vec![u16::MAX; 4 * rows + 1];
        assert_eq!((superframe_size(&set), superframe(&set, &mut table)), (answer, answer));
        assert_eq!(table.pop(), Some(u16::MAX));
        let slots = table.chunks_exact(4).map(|row| u32::from(row[0]));
        assert!(slots.clone().is_sorted() && slots.clone().max() < Some(hyper) && slots.max() > Some(hyper - 99));
        // none has more than 16 rows a slot
        assert!(rows <= 16 * hyper as usize && table.chunks_exact(4).all(|row| row[3] < 16));
        let mut short = vec![7; 4 * rows - 1];
        assert_eq!(superframe(&set, &mut short), refused(10));
        assert!(short.iter().all(|&number| number == 7));
    }
    // F3: in slot 0 all 16, then 15 flows in every slot.
    let mut table = vec![0; 3_932_104];
    superframe(&superframes::f3(), &mut table);
    let wanted = (0..16).map(|k| [0, k, 0, k]).chain((0..15).map(|k| [1, k, 0, k]));
    assert!(table.chunks_exact(4).zip(wanted).all(|(row, wanted)| row == wanted));
    assert_eq!(table[3_932_100..], [65_534, 14, 0, 14]);
}

#[test]
fn hyper_periods_are_the_least() {
    loading::hypers(RIGHT, 101, 3_000).unwrap();
}

#[test]
fn tables_are_the_definitions() {
    loading::tables(RIGHT, 102, 1_000).unwrap();
}

#[test]
fn the_table_repeats_and_an_admitted_one_has_its_length() {
    let fared = loading::repeats(RIGHT, 103, 12_000).unwrap();
    // Tame sets would prove little.
    assert!(fared.admitted > 5_000 && fared.others > 1_000 && fared.dropping > 500, "{fared:?}");
    assert!(fared.moving > 3_000 && fared.tries > 3_000 && fared.rows > 50_000, "{fared:?}");
}

/// Rows rise by slot, then offset; slots are below the hyper-period, flows below the count, numbers below C; a slot's
/// offsets are 0, 1, 2 .. and below m.
#[test]
fn tables_have_their_shape() {
    let mut rng = Rng::new(104);
    for _ in 0..3_000 {
        let set = superframes::any(&mut rng);
        let size = superframe_size(&set);
        let mut table = vec![0; size.numbers];
        assert_eq!(superframe(&set, &mut table), size);
        let rows: Vec<&[u16]> = table.chunks_exact(4).collect();
        assert!(rows.windows(2).all(|two| (two[0][0], two[0][3]) < (two[1][0], two[1][3])));
        for (i, row) in rows.iter().enumerate() {
            let before = rows[..i].iter().rev().take_while(|other| other[0] == row[0]).count();
            assert_eq!(usize::from(row[3]), before);
            assert!(u32::from(row[0]) < size.hyper && u32::from(row[3]) < set.m() && row[1] < set.count);
            assert!(u32::from(row[2]) < set.flows[usize::from(row[1])].c());
        }
    }
}

/// Any record, any text and any room: a refusal changes nothing, and nothing else than the table changes.
#[test]
fn a_refused_superframe_changes_nothing() {
    let (mut rng, mut seen) = (Rng::new(105), [0; REFUSALS]);
    for _ in 0..4_000 {
        let set = if rng.once_in(4) { records::record(&mut rng) } else { superframes::any(&mut rng) };
        let size = superframe_size(&set);
        let more = rng.within(1, 3);
        let room = rng.pick(&[size.numbers, size.numbers.saturating_sub(1), size.numbers + more, 0]);
        let mut table = vec![60_000; room];
        let answer = superframe(&set, &mut table);
        seen[usize::from(answer.refusal.number)] += 1;
        assert!(table[answer.numbers..].iter().all(|&number| number == 60_000));
        let fits = size.refusal.refuses() || size.numbers <= room;
        assert_eq!(answer, if fits { size } else { refused(10) });
        if !check(&set).refuses() {
            let mut again = vec![60_000; room];
            assert_eq!((superframe_of_text(&text_of(&set), &mut again), again), (answer, table));
        }
        let text = texts::any(&mut rng);
        let wanted = match read(&text) {
            read if read.refusal.refuses() => Superframe { refusal: read.refusal, ..Superframe::default() },
            read => superframe_size(&read.set),
        };
        assert_eq!(superframe_size_of_text(&text), wanted);
    }
    assert!([0, 2, 3, 4, 5, 6, 7, 8, 9, 10, 14, 15, 16].iter().all(|&number| seen[number] > 5), "{seen:?}");
}

#[test]
fn channels_follow_the_true_slot_and_no_sum_overflows() {
    assert_eq!([0, 20, 40, 60].map(|slot| channel(7, slot, 0)), [11, 13, 12, 11]);
    assert_eq!([0, 1, 2, 3].map(|offset| channel(32_785, 1, offset)), [15, 26, 11, 15]);
    // 2³² − 1 and 2³² − 2 are 0 and 2 modulo 3; the sum, 2³³ − 3, is 2
    let most = u32::MAX;
    assert_eq!([channel(7, most, 0), channel(7, most, most - 1), channel(65_535, most, most)], [11, 13, 25]);
    assert_eq!([channel(1, most, most), channel(32_768, 9, 9)], [11, 26]);
    for map in [0, 65_536, 65_537, 1 << 31, most] {
        assert_eq!(channel(map, 0, 0), 0);
    }
    // It is the channel that the machine takes.
    let set = set_of(F2_TEXT);
    for t in [0, 1, 2, 3, 10, 11, 3_999_999_980] {
        let state = second::State { slot: t, ..second::State::FRESH };
        for sent in second::step(&set, &state).slot.sends {
            assert_eq!(u32::from(sent.channel), channel(set.map.into(), t, sent.offset.into()));
        }
    }
}

#[test]
fn the_program_prints_the_tables_lines() {
    let printed = |text: &str| String::from_utf8(superframe_text(text.as_bytes())).unwrap();
    assert_eq!((printed(P1_TEXT), printed(F2_TEXT)), (P1_LINES.into(), P1_LINES.into()));
    assert_eq!((printed("set\t1\n"), printed("set\t0\n")), ("".into(), "refused\t2\t1\t2\n".into()));
    assert_eq!((printed(""), printed(PAPER[2].text)), ("refused\t1\t1\t0\n".into(), "refused\t14\t0\t0\n".into()));
    assert_eq!(printed(&typed("set 3;flow 10 8 0 1 1 2 3;flow 20 20 1 1 4 2 5;")), "refused\t15\t0\t0\n");
    assert_eq!(printed(&typed("set 3;flow 32769 9 0 1 1 2;flow 2 2 0 1 8 9;")), "refused\t16\t0\t0\n");
    let long = |bytes: usize| "set\t0\n".to_string() + &"x".repeat(bytes - 6);
    assert_eq!(
        (printed(&long(16_384)), printed(&long(16_385))),
        ("refused\t2\t1\t2\n".into(), "refused\t10\t0\t0\n".into())
    );
    let mut rng = Rng::new(106);
    for _ in 0..1_000 {
        let set = superframes::any(&mut rng);
        let mut table = vec![0; superframe_size(&set).numbers];
        let answer = superframe(&set, &mut table);
        let wanted = match answer.refusal.number {
            0 => lines_of(&table),
            number => format!("refused\t{number}\t{}\t0\n", answer.refusal.line).into_bytes(),
        };
        assert_eq!(superframe_text(&text_of(&set)), wanted);
    }
}
