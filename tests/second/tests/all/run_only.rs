//! Document 01's "run only" list, and routes that return at the limits.

use crate::checks::{set_of, P1_TEXT};
use second::record::LAST_SLOT;
use second::{bound, read, step, write, Refusal, State};

fn refusal(text: &str) -> Refusal {
    read(text.as_bytes()).refusal
}

/// A set's line and this many one-link flows.
fn flows(count: usize) -> String {
    let lines: String = (0..count).map(|k| format!("flow\t9\t9\t0\t1\t{k}\t{}\n", k + 1)).collect();
    format!("set\t1\n{lines}")
}

/// A flow's line with this many nodes.
fn nodes(count: usize) -> String {
    let route: String = (0..count).map(|node| format!("\t{node}")).collect();
    format!("set\t1\nflow\t99\t99\t0\t1{route}\n")
}

#[test]
fn flows_64_and_65() {
    assert_eq!(refusal(&flows(64)), Refusal::NONE);
    assert_eq!(set_of(&flows(64)).count, 64);
    assert_eq!(refusal(&flows(65)), Refusal::in_field(3, 66, 1));
    assert_eq!(refusal(&flows(66)), Refusal::in_field(3, 66, 1));
}

#[test]
fn deadline_equal_to_the_period_and_one_above() {
    assert_eq!(refusal("set\t1\nflow\t10\t10\t0\t1\t1\t2\n"), Refusal::NONE);
    assert_eq!(refusal("set\t1\nflow\t10\t11\t0\t1\t1\t2\n"), Refusal::in_field(5, 2, 3));
}

#[test]
fn nodes_17_and_18() {
    assert_eq!(refusal(&nodes(17)), Refusal::NONE);
    assert_eq!(refusal(&nodes(18)), Refusal::at(7, 2));
}

#[test]
fn nodes_16_to_18_of_two_alternating_ones() {
    let line = |d: u32, tries: u32, count: usize| {
        let route: String = (0..count).map(|i| format!("\t{}", 1 + i % 2)).collect();
        format!("set\t1\nflow\t64\t{d}\t0\t{tries}{route}\n")
    };
    for count in [16, 17] {
        assert_eq!(refusal(&line(64, 4, count)), Refusal::NONE);
    }
    let set = set_of(&line(64, 4, 17));
    let bound = bound(&set, 0);
    assert_eq!((bound.c, bound.basic, bound.tightened, bound.margin), (64, 64, 64, 0));
    assert_eq!(refusal(&line(63, 4, 17)), Refusal::at(9, 2));
    assert_eq!(refusal(&line(64, 4, 18)), Refusal::at(7, 2));
    assert_eq!(refusal(&line(64, 1, 18)), Refusal::at(7, 2));
}

#[test]
fn a_leading_zero() {
    assert_eq!(refusal("set\t07\n"), Refusal::in_field(1, 1, 2));
    assert_eq!(refusal("set\t7\nflow\t10\t10\t07\t1\t1\t2\n"), Refusal::in_field(1, 2, 4));
    assert_eq!(refusal("set\t7\nflow\t10\t10\t0\t1\t1\t0\n"), Refusal::NONE);
}

#[test]
fn a_missing_last_lf() {
    assert_eq!(refusal("set\t7"), Refusal::at(1, 1));
    assert_eq!(refusal(&P1_TEXT[..P1_TEXT.len() - 1]), Refusal::at(1, 3));
}

#[test]
fn a_buffer_one_byte_short() {
    let set = set_of(P1_TEXT);
    let mut short = vec![7; P1_TEXT.len() - 1];
    let written = write(&set, &mut short);
    assert_eq!((written.refusal, written.bytes), (Refusal::at(10, 0), 0));
    assert!(short.iter().all(|&byte| byte == 7));
    let mut exact = vec![7; P1_TEXT.len()];
    assert_eq!(write(&set, &mut exact).bytes, P1_TEXT.len());
    assert_eq!(exact, P1_TEXT.as_bytes());
}

#[test]
fn slots_3999999999_and_4000000000() {
    let set = set_of(P1_TEXT);
    let last = State { slot: 3_999_999_999, ..State::FRESH };
    let made = step(&set, &last);
    assert_eq!((made.refusal, made.state.slot), (Refusal::NONE, LAST_SLOT));
    let refused = step(&set, &made.state);
    assert_eq!((refused.refusal, refused.state), (Refusal::at(11, 0), made.state));
    assert_eq!(refused.slot, Default::default());
    let above = State { slot: LAST_SLOT + 1, ..State::FRESH };
    assert_eq!(step(&set, &above).refusal, Refusal::at(12, 0));
}
