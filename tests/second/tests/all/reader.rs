//! The reader and the writer: refusals by number, line and field, and both round trips.

use crate::checks::{self, RIGHT};
use crate::definition;
use second::inputs::{named, records, sets, texts, Rng};
use second::write::text_of;
use second::{read, same, write, Refusal, Set};

const GOOD: &str = "set\t1\nflow\t10\t4\t0\t2\t1\t2\t3\n";

/// Number, line and field of a text's refusal.
fn refused(text: &[u8]) -> (u8, usize, usize) {
    let read = read(text);
    assert!(!read.refusal.refuses() || read.set == Set::BLANK);
    (read.refusal.number, read.refusal.line, read.refusal.field)
}

#[test]
fn named_texts_are_refused_as_they_say() {
    checks::named_texts(RIGHT).unwrap();
    assert_eq!(named::fields().len(), 42);
}

#[test]
fn texts_with_a_long_line_are_refused_as_they_say() {
    checks::long_lines(RIGHT).unwrap();
    let first = format!("set{}\n", "\t7".repeat(texts::LONG[1]));
    assert_eq!(refused(first.as_bytes()), (1, 1, 3));
}

/// First lines that lack the form, each a whole text, and the first field that breaks it.
const FIRSTS: [(&[u8], usize); 20] = [
    (b"", 0),
    (b"\n", 1),
    (b"set", 0),
    (b"set\n", 0),
    (b"set\t", 2),
    (b"set\t\n", 2),
    (b"set\t3\t4\n", 3),
    (b"set\t3\t\n", 3),
    (b"set\t\t3\n", 2),
    (b"\tset\t3\n", 1),
    (b"set 3\n", 1),
    (b"Set\t3\n", 1),
    (b"set\t3\r\n", 2),
    (b"\xef\xbb\xbfset\t3\n", 1),
    (b"set\t3\0\n", 2),
    (b"set\t+3\n", 2),
    (b"set\t65536\n", 2),
    (b"sets\t3\n", 1),
    (b"flow\t3\n", 1),
    (b"set\t00\n", 2),
];

/// Flow lines that lack the form, each the end of a text.
const FLOWS: [(&str, usize); 15] = [
    ("\n", 1),
    ("flow\n", 0),
    ("flow\t10\t4\t0\n", 0),
    ("flow\t10\t4\t0\t\n", 5),
    ("flows\t10\t4\t0\t2\t1\t2\n", 1),
    ("set\t1\n", 1),
    (" flow\t1\n", 1),
    ("flow\t10\t4\t0\t2\t1\t2", 0),
    ("flow\t10\t4\t0\t2\t1\t2\t\n", 8),
    ("flow\t10\t4\t0\t2\t1\t\t2\n", 7),
    ("flow\t10\t4\t-0\t2\t1\t2\n", 4),
    ("flow\t10\t4\t0\t2\t1\t2\r\n", 7),
    ("flow\t10\t4\t0\t2\t1\t70000\n", 7),
    ("flow\t0\t0\t0\t0\tx\n", 6),
    ("flow", 0),
];

#[test]
fn a_line_that_lacks_the_form_is_1() {
    for (text, field) in FIRSTS {
        assert_eq!(refused(text), (1, 1, field), "{}", String::from_utf8_lossy(text));
    }
    for (line, field) in FLOWS {
        assert_eq!(refused(format!("{GOOD}{line}").as_bytes()), (1, 3, field), "{line}");
    }
}

#[test]
fn the_lowest_fault_of_the_line_decides() {
    let nodes = |count: usize| (0..count).map(|node| format!("\t{}", node % 1000)).collect::<String>();
    let cases = [
        ("flow\t10\t4\t0\t2".to_string(), 7, 0),
        (format!("flow\t99\t99\t0\t1{}\tx", nodes(30)), 1, 36),
        (format!("flow\t99\t99\t0\t1{}\t0", nodes(17)), 7, 0),
        // More nodes than 16 bits count: 65,536 and 3.
        (format!("flow\t99\t99\t0\t1{}", nodes(65_539)), 7, 0),
        ("flow\t0\t0\t0\t0".to_string(), 4, 2),
        ("flow\t0\t5\t0\t1\t1\t2".to_string(), 4, 2),
        ("flow\t9\t0\t0\t1\t1\t2".to_string(), 5, 3),
        ("flow\t9\t9\t0\t0\t1\t2".to_string(), 6, 5),
        ("flow\t9\t9\t0\t5\t1".to_string(), 6, 5),
        (format!("flow\t99\t99\t0\t1{}\t16", nodes(17)), 7, 0),
        ("flow\t9\t1\t0\t1\t1\t2\t2".to_string(), 8, 8),
        ("flow\t9\t1\t0\t1\t1\t2\t3".to_string(), 9, 0),
        ("flow\t9\t1\t0\t1\t1\t2\t1".to_string(), 9, 0),
        (format!("flow\t9\t9\t{}\t1\t1\t2", "9".repeat(40)), 1, 4),
        (format!("flow\t9\t9\t{}\t1\t1\t2", "0".repeat(40)), 1, 4),
    ];
    for (line, number, field) in cases {
        assert_eq!(refused(format!("{GOOD}{line}\n{GOOD}").as_bytes()), (number, 3, field), "{line}");
    }
}

#[test]
fn the_first_faulty_line_decides() {
    assert_eq!(refused(b"set\t0\nflow\t1"), (2, 1, 2));
    assert_eq!(refused(b"set\t1\nflow\t9\t1\t0\t2\t1\t2\nflow"), (9, 2, 0));
    let crowd = text_of(&sets::full(&mut Rng::new(5)));
    for (line, number, field) in
        [("flow\t0\t0\t0\t0\n", 3, 1), ("flow\t0\t0\t0\t0", 1, 0), ("x\n", 1, 1), ("flow\t1\t1\t1\t1\n\n\n", 3, 1)]
    {
        assert_eq!(refused(&[&crowd, line.as_bytes()].concat()), (number, 66, field));
    }
}

#[test]
fn damaged_texts_are_refused_by_their_lowest_fault() {
    checks::damaged_texts(RIGHT, 41, 200).unwrap();
}

#[test]
fn texts_are_refused_as_the_definition_says() {
    checks::texts(RIGHT, 45, 20_000).unwrap();
}

#[test]
fn a_set_written_and_read_again_is_the_same_set() {
    let mut rng = Rng::new(42);
    for _ in 0..3_000 {
        let set = sets::any(&mut rng);
        let mut untidy = set;
        records::garbage(&mut rng, &mut untidy);
        let mut buffer = [0xaa; 9_000];
        let written = write(&untidy, &mut buffer);
        assert_eq!(written.refusal, Refusal::NONE);
        assert!(buffer[written.bytes..].iter().all(|&byte| byte == 0xaa));
        // The reader leaves unused entries 0, so it hands back the tidy set to the last entry.
        assert_eq!(read(&buffer[..written.bytes]).set, set);
        assert!(same(&untidy, &set));
    }
}

#[test]
fn an_accepted_text_read_and_written_again_has_the_same_bytes() {
    let mut rng = Rng::new(43);
    let mut accepted = 0;
    for _ in 0..6_000 {
        let text = texts::stray(&mut rng);
        let read = read(&text);
        if !read.refusal.refuses() {
            assert_eq!(text_of(&read.set), text);
            accepted += 1;
        }
    }
    assert!(accepted > 300, "{accepted}");
}

#[test]
fn the_longest_accepted_text_has_8138_bytes() {
    let nodes: String = (0..17).map(|i| format!("\t{}", 65_535 - i)).collect();
    let line = format!("flow\t65535\t65535\t65535\t4{nodes}\n");
    let text = format!("set\t65535\n{}", line.repeat(64));
    assert_eq!(text.len(), 8_138);
    let read = read(text.as_bytes());
    assert_eq!(read.refusal, Refusal::NONE);
    assert_eq!(text_of(&read.set), text.as_bytes());
}

#[test]
fn any_bytes_at_all_are_answered() {
    let mut rng = Rng::new(44);
    for _ in 0..20_000 {
        let text: Vec<u8> = (0..rng.below(60)).map(|_| rng.pick(b"\t\t\t\n\nsetflow0123456789\xff\x00")).collect();
        let found = read(&text).refusal;
        assert_eq!(found, definition::refusal_of_text(&text));
        assert!(found.number <= 9 && found.line <= 66 && found.field <= text.len());
    }
}
