//! Request 4, fixed priority: the test, its machine, what C and the program answer, and demand 3 for the pair.

use crate::by_number;
use crate::checks::{set_of, RIGHT};
use second::fixed::{fixed_bound_of_text, fixed_of, fixed_verdict_of_text};
use second::host::{bytes_of_state, fixed_step_of_text, put_sends};
use second::inputs::{named::typed, ranked, records, sets, texts, Rng};
use second::record::LAST_SLOT;
use second::{bound, fixed_bound, fixed_step, fixed_text, fixed_verdict, plan, read, step, verdict};
use second::{check, FixedBound, FixedMachine, FixedVerdict, Machine, Refusal, Set, Slot, State};

/// The text of one of the request's sets.
fn text_of(name: &str) -> String {
    ranked::named().into_iter().find(|row| row.name.starts_with(name)).unwrap().text
}

fn set_named(name: &str) -> Set {
    set_of(&text_of(name))
}

#[test]
fn the_requests_sets_are_as_written() {
    by_number::paper(RIGHT).unwrap();
}

/// The last column of the request's table: what document 01's tests say of the same sets.
#[test]
fn document_01_says_otherwise_of_the_requests_sets() {
    let tightened = |set: &Set| [0, 1].map(|k| bound(set, k).tightened);
    assert_eq!(tightened(&set_named("P1")), [2, 6]);
    assert_eq!(tightened(&set_named("P5")), [2, 2]);
    assert_eq!((verdict(&set_named("X1")).tightened, tightened(&set_named("X1"))), (true, [3, 1]));
    assert_eq!(tightened(&set_named("X2")), [1, 3]);
}

/// The tightened test admits X1, which promises nothing of this machine: flow 1 is dropped in slot 1.
#[test]
fn another_tests_verdict_promises_nothing() {
    let set = set_named("X1");
    let (first, edf) = (fixed_step(&set, &State::FRESH), step(&set, &State::FRESH));
    assert_eq!((first.slot.sends[0].flow, edf.slot.sends[0].flow), (0, 1));
    assert_eq!(fixed_step(&set, &first.state).slot.dropped, [1]);
    assert!(verdict(&set).tightened && !fixed_verdict(&set).admitted);
}

#[test]
fn no_flows_are_admitted_and_none_is_judged() {
    let set = set_of("set\t1\n");
    assert_eq!(fixed_verdict(&set), FixedVerdict { refusal: Refusal::NONE, admitted: true, judged: 0 });
    assert_eq!(fixed_bound(&set, 0).refusal, Refusal::at(13, 0));
    assert_eq!(fixed_text(b"set\t1\n"), b"fixed\t1\t0\n");
}

#[test]
fn bounds_and_who_is_judged_are_the_definitions() {
    by_number::bounds(RIGHT, 101, 6_000).unwrap();
}

/// A flow's bound is a matter of those before it: whatever follows can be taken away. The first flow's is its C.
#[test]
fn later_flows_change_no_bound() {
    let mut rng = Rng::new(102);
    for _ in 0..2_000 {
        let set = ranked::any(&mut rng);
        let whole = fixed_of(&set);
        let count = rng.within(0, usize::from(set.count));
        let fewer = fixed_of(&Set { count: count as u16, ..set });
        assert_eq!(whole.bound[..count], fewer.bound[..count]);
        assert_eq!(whole.judged.min(count), fewer.judged);
        assert!(count == 0 || (whole.bound[0], whole.judged > 0) == (whole.c[0], true));
    }
}

/// The request's own words on it: 0 and unjudged after the first over its deadline, which keeps its bound.
#[test]
fn only_the_first_flow_over_its_deadline_is_judged_so() {
    let (mut rng, mut over) = (Rng::new(103), [0; 64]);
    for _ in 0..6_000 {
        let set = ranked::edge(&mut rng);
        let (fixed, verdict) = (fixed_of(&set), fixed_verdict(&set));
        for k in 0..fixed.count {
            let FixedBound { refusal, c, bound, deadline, judged } = fixed_bound(&set, k as u32);
            assert_eq!((refusal, c, deadline), (Refusal::NONE, set.flows[k].c(), set.flows[k].deadline.into()));
            assert_eq!(judged, k < verdict.judged as usize);
            assert!(if judged { bound >= c } else { bound == 0 });
            assert!(bound <= deadline || k + 1 == verdict.judged as usize);
        }
        let last = fixed.judged.wrapping_sub(1);
        assert_eq!(verdict.admitted, fixed.judged == fixed.count && fixed.kept() == fixed.count);
        if !verdict.admitted {
            assert!(fixed.bound[last] > fixed.deadline[last]);
            over[last] += 1;
        }
    }
    // Nobody is before flow 0, so its bound is its C and never over.
    assert!(over[0] == 0 && over[1..7].iter().all(|&times| times > 100), "{over:?}");
    assert!(over[7..].iter().sum::<usize>() > 300, "{over:?}");
}

#[test]
fn the_greatest_bounds_fit() {
    let mut rng = Rng::new(104);
    let set = set_named("a bound of a million");
    assert_eq!(fixed_bound(&set, 16).bound, 1_048_624);
    for _ in 0..2_000 {
        let fixed = fixed_of(&sets::large(&mut rng));
        assert!(fixed.bound.iter().all(|&bound| bound < 8_400_000));
    }
}

#[test]
fn slots_by_number_from_any_state_are_the_definitions() {
    by_number::slots(RIGHT, 105, 4_000).unwrap();
}

#[test]
fn a_machine_by_number_remembers_nothing_but_the_set() {
    let mut rng = Rng::new(106);
    for _ in 0..400 {
        let set = ranked::any(&mut rng);
        let Ok(mut machine) = FixedMachine::new(&set) else { panic!("a drawn set is refused") };
        let mut slot = Slot::default();
        for _ in 0..20 {
            let state = records::state(&mut rng, &set);
            let mut next = state;
            let refusal = machine.step(&mut next, &mut slot);
            let fresh = fixed_step(&set, &state);
            assert_eq!((refusal, next, &slot), (fresh.refusal, fresh.state, &fresh.slot));
        }
    }
}

/// "differs only in rule 4's order": where that is the same, so are the slots; of other sets many differ.
#[test]
fn the_two_machines_differ_only_in_their_order() {
    let (mut rng, mut differ) = (Rng::new(107), 0);
    for _ in 0..1_500 {
        let (mut same, mut state) = (ranked::alike(&mut rng), State::FRESH);
        assert_eq!(check(&same), Refusal::NONE);
        records::garbage(&mut rng, &mut same);
        for _ in 0..40 {
            let (one, other) = (fixed_step(&same, &state), step(&same, &state));
            assert_eq!(one, other);
            state = one.state;
        }
        let set = ranked::tight(&mut rng);
        let state = records::state(&mut rng, &set);
        differ += usize::from(fixed_step(&set, &state) != step(&set, &state));
    }
    assert!(differ > 50, "{differ}");
}

/// The sets by which a step and a run of both machines are measured: their slots are the same, busy or idle.
#[test]
fn measured_sets_have_the_same_slots_under_both_orders() {
    for (set, least) in [(sets::spread(1024, 16), 150), (sets::busy(), 40_000)] {
        let (Ok(mut one), Ok(mut other)) = (FixedMachine::new(&set), Machine::new(&set)) else { panic!("a good set") };
        let (mut states, mut slots, mut sends) = ([State::FRESH; 2], [Slot::new(), Slot::new()], 0);
        for _ in 0..3_000 {
            one.step(&mut states[0], &mut slots[0]);
            other.step(&mut states[1], &mut slots[1]);
            assert_eq!((states[0], &slots[0]), (states[1], &slots[1]));
            sends += slots[0].sends.len();
        }
        assert!(sends > least, "{sends}");
    }
    // and the sets whose verdicts are measured: how many flows are judged
    let few = |count| Set { count, ..sets::full(&mut Rng::new(1)) };
    let judged = [few(1), few(8), few(64), sets::roomy(8), sets::roomy(64)].map(|set| fixed_verdict(&set).judged);
    assert_eq!(judged, [1, 2, 2, 8, 64]);
}

/// Drops are reported in rising flow number though deadlines do not rise, and one that is no longer ready is none.
#[test]
fn drops_of_any_flow_are_reported_by_number() {
    let set = set_of(&typed("set 1;flow 9 9 0 1 1 2;flow 9 1 0 1 3 4;flow 9 5 0 1 5 6;flow 9 1 0 1 7 8;"));
    let step = fixed_step(&set, &State::FRESH);
    assert_eq!((step.slot.sends.len(), step.slot.dropped), (1, vec![1, 3]));
}

#[test]
fn admitted_sets_keep_their_bounds_by_number_and_attain_them() {
    let fared = by_number::demand3(RIGHT, 108, 30_000).unwrap();
    assert!(fared.admitted > 12_000 && fared.attained > 4_000, "{fared:?}");
    assert!(fared.packets > 1_000_000, "{fared:?}");
}

/// h-l-k: the last flow's packets wait for two of l, one of which h held up.
#[test]
fn chains_keep_their_bounds_and_attain_them() {
    let fared = by_number::chains(RIGHT, 109, 30_000).unwrap();
    assert!(fared.admitted > 10_000 && fared.attained > 10_000, "{fared:?}");
    assert!(fared.last_attained > 1_000, "{fared:?}");
}

#[test]
fn admitted_sets_of_every_size_keep_their_bounds_by_number() {
    let fared = by_number::demand3_of(RIGHT, ranked::edge, 1_500, 110, 2_000).unwrap();
    assert!(fared.admitted > 500 && fared.attained > 80 && fared.packets > 200_000, "{fared:?}");
}

/// Flow by flow: in sets that are not admitted too.
#[test]
fn flows_before_the_first_over_keep_their_bounds_though_later_ones_do_not() {
    for draw in [ranked::tight, ranked::chain] {
        let fared = by_number::demand3_of(RIGHT, draw, 150, 111, 10_000).unwrap();
        assert!(fared.partly > 2_500 && fared.partly_attained > 900, "{fared:?}");
        assert!(fared.partly_dropped > 1_500, "{fared:?}");
    }
    // X3: the first four keep their bound of 1 while flow 4 is dropped; so does X4's flow 1, while flow 2 is.
    for (name, kept) in [("X3", 4), ("X4", 2)] {
        assert_eq!(fixed_of(&set_named(name)).kept(), kept);
    }
}

const X1_TEXT: &str = "fixed\t0\t2
bound\t0\t2\t2\t10\t1
bound\t1\t1\t3\t2\t1
send\t0\t0\t1\t2\t0\t11
send\t1\t0\t2\t3\t0\t11
send\t10\t0\t1\t2\t0\t11
send\t11\t0\t2\t3\t0\t11
";

const X3_TEXT: &str = "fixed\t0\t5
bound\t0\t1\t1\t1\t1
bound\t1\t1\t1\t1\t1
bound\t2\t1\t1\t1\t1
bound\t3\t1\t1\t1\t1
bound\t4\t1\t2\t1\t1
bound\t5\t1\t0\t9\t0
send\t0\t0\t1\t2\t0\t11
send\t0\t1\t3\t4\t0\t12
send\t0\t2\t5\t6\t0\t13
send\t0\t3\t7\t8\t0\t14
send\t1\t5\t11\t12\t0\t12
send\t10\t0\t1\t2\t0\t13
send\t10\t1\t3\t4\t0\t14
send\t10\t2\t5\t6\t0\t11
send\t10\t3\t7\t8\t0\t12
send\t11\t5\t11\t12\t0\t14
";

#[test]
fn the_program_prints_x1_and_x3_byte_for_byte() {
    assert_eq!(String::from_utf8(fixed_text(text_of("X1").as_bytes())).unwrap(), X1_TEXT);
    assert_eq!(String::from_utf8(fixed_text(text_of("X3").as_bytes())).unwrap(), X3_TEXT);
}

/// P1's slots are those of the plan; a refused input has one line, whatever the program.
#[test]
fn the_program_prints_what_the_functions_answer() {
    let lines = |text: Vec<u8>, send: bool| {
        let text = String::from_utf8(text).unwrap();
        text.lines().filter(|line| line.starts_with("send") == send).map(String::from).collect::<Vec<_>>()
    };
    let first = text_of("P1").into_bytes();
    assert_eq!(lines(fixed_text(&first), false), ["fixed\t1\t2", "bound\t0\t2\t2\t8\t1", "bound\t1\t2\t8\t20\t1"]);
    assert_eq!(lines(fixed_text(&first), true), lines(plan(&first), true));
    let mut rng = Rng::new(112);
    for _ in 0..500 {
        let text = texts::any(&mut rng);
        if read(&text).refusal.refuses() {
            assert_eq!(fixed_text(&text), plan(&text));
        }
    }
    assert_eq!(fixed_text(&[b'x'; 16_384]), b"refused\t1\t1\t1\n");
    assert_eq!(fixed_text(&[b'x'; 16_385]), b"refused\t10\t0\t0\n");
}

#[test]
fn answers_by_number_over_text_are_those_over_the_record() {
    let mut rng = Rng::new(113);
    for _ in 0..1_500 {
        let text = if rng.once_in(2) { texts::good(&mut rng) } else { texts::any(&mut rng) };
        let (read, flow) = (read(&text), rng.below(70) as u32);
        let (verdict, bound) = (fixed_verdict_of_text(&text), fixed_bound_of_text(&text, flow));
        if read.refusal.refuses() {
            assert_eq!(verdict, FixedVerdict { refusal: read.refusal, ..FixedVerdict::default() });
            assert_eq!(bound, FixedBound { refusal: read.refusal, ..FixedBound::default() });
            continue;
        }
        assert_eq!((verdict, bound), (fixed_verdict(&read.set), fixed_bound(&read.set, flow)));
        let state = records::state(&mut rng, &read.set);
        let (mut bytes, mut lines) = (bytes_of_state(&state), [0x5a; 600]);
        let (written, step) = (fixed_step_of_text(&text, &mut bytes, &mut lines), fixed_step(&read.set, &state));
        let mut wanted = Vec::new();
        put_sends(&mut wanted, state.slot, &step.slot);
        assert_eq!((written.refusal, bytes), (step.refusal, bytes_of_state(&step.state)));
        assert_eq!((&lines[..written.bytes], lines[written.bytes]), (&wanted[..], 0x5a));
    }
}

/// The set's own, then 13; the set's own, then 12, 11, 10; and nothing is written.
#[test]
fn refusals_by_number_come_in_the_order_of_the_document() {
    let bad = "set\t1\nflow\t10\t3\t0\t2\t1\t2\t3\n";
    assert_eq!(fixed_bound_of_text(bad.as_bytes(), 9).refusal, Refusal::at(9, 2));
    let (text, zeros) = (text_of("X2"), FixedBound::default());
    assert_eq!(fixed_bound_of_text(text.as_bytes(), 2), FixedBound { refusal: Refusal::at(13, 0), ..zeros });
    assert_eq!(fixed_bound(&set_of(&text), u32::MAX).refusal, Refusal::at(13, 0));
    let at = |slot, count| {
        let mut state = State { slot, ..State::FRESH };
        state.sent[0] = count;
        bytes_of_state(&state).to_vec()
    };
    let cases = [
        (bad, vec![0; 3], 9, 2),
        (&text, vec![0; 67], 12, 0),
        (&text, vec![0; 69], 12, 0),
        (&text, at(LAST_SLOT, 2), 12, 0),
        (&text, at(LAST_SLOT + 1, 0), 12, 0),
        (&text, at(LAST_SLOT, 1), 11, 0),
        (&text, at(0, 0), 10, 0),
    ];
    for (text, before, number, line) in cases {
        let (mut state, mut lines) = (before.clone(), [7; 17]);
        let written = fixed_step_of_text(text.as_bytes(), &mut state, &mut lines);
        assert_eq!((written.refusal, written.bytes), (Refusal::at(number, line), 0));
        assert_eq!((state, lines), (before, [7; 17]));
    }
    assert_eq!(fixed_step_of_text(text.as_bytes(), &mut at(0, 0), &mut [0; 18]).bytes, 18);
}

/// Records of every kind: refused ones give zeros and the state back.
#[test]
fn any_record_is_answered_by_number() {
    let (mut rng, mut refused) = (Rng::new(114), 0);
    for _ in 0..3_000 {
        let set = records::record(&mut rng);
        let (refusal, state) = (check(&set), records::state(&mut rng, &set));
        let (verdict, step) = (fixed_verdict(&set), fixed_step(&set, &state));
        assert_eq!(
            (verdict.refusal, fixed_bound(&set, 0).refusal.number > 9),
            (refusal, !refusal.refuses() && set.count == 0)
        );
        if refusal.refuses() {
            refused += 1;
            assert_eq!(verdict, FixedVerdict { refusal, ..FixedVerdict::default() });
            assert_eq!(fixed_bound(&set, 64), FixedBound { refusal, ..FixedBound::default() });
            assert_eq!((step.refusal, step.state, step.slot), (refusal, state, Slot::default()));
        }
    }
    assert!(refused > 1_000, "{refused}");
}
