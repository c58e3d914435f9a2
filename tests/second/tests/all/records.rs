//! Sets handed over as records: rules 2 to 9 by line, what doesn't count, and any value in any field.

use crate::checks::{self, set_of, P1_TEXT, RIGHT};
use second::inputs::{records, sets, Rng};
use second::{bound, check, read, same, step, verdict, write, Bound, Refusal, Set, State, Verdict};

/// The text that a record would have, faults and all: routes as long as it says, up to where 7 is certain.
fn text_as_is(set: &Set) -> String {
    let mut text = format!("set\t{}\n", set.map);
    for k in 0..usize::from(set.count).min(66) {
        let flow = set.flows[k.min(63)];
        text += &format!("flow\t{}\t{}\t{}\t{}", flow.period, flow.deadline, flow.start, flow.tries);
        for i in 0..usize::from(flow.nodes).min(30) {
            text += &format!("\t{}", flow.route.get(i).unwrap_or(&0));
        }
        text += "\n";
    }
    text
}

#[test]
fn a_record_is_judged_as_its_text_would_be() {
    let mut rng = Rng::new(51);
    for _ in 0..8_000 {
        let set = records::record(&mut rng);
        // a record has no fields
        let refusal = Refusal { field: 0, ..read(text_as_is(&set).as_bytes()).refusal };
        assert_eq!(check(&set), refusal, "{set:?}");
    }
}

#[test]
fn a_count_above_64_is_3_at_line_66_after_all_flows() {
    let mut set = sets::full(&mut Rng::new(6));
    for count in [65, 70, 65_535] {
        set.count = count;
        assert_eq!(check(&set), Refusal::at(3, 66));
    }
    set.flows[5].period = 0;
    assert_eq!(check(&set), Refusal::at(4, 7));
    set.map = 0;
    assert_eq!(check(&set), Refusal::at(2, 1));
}

#[test]
fn node_counts_above_17_look_at_nothing_beyond() {
    let mut set = set_of(P1_TEXT);
    for nodes in [0, 1, 18, 19, 256, 65_535] {
        set.flows[1].nodes = nodes;
        assert_eq!(check(&set), Refusal::at(7, 3));
    }
}

#[test]
fn only_the_nodes_of_the_route_can_be_equal_neighbours() {
    let mut set = set_of("set\t1\nflow\t99\t99\t0\t1\t1\t2\n");
    for (last, behind) in [(2, 2), (0, 0), (65_535, 65_535), (2, 1)] {
        set.flows[0].route[1] = last;
        set.flows[0].route[2..].fill(behind);
        set.flows[0].nodes = 2;
        assert_eq!(check(&set), Refusal::NONE);
        for nodes in 3..=17 {
            set.flows[0].nodes = nodes;
            let refused = last == behind || nodes > 3;
            assert_eq!(check(&set), if refused { Refusal::at(8, 2) } else { Refusal::NONE });
        }
        set.flows[0].nodes = 18;
        assert_eq!(check(&set), Refusal::at(7, 2));
    }
}

#[test]
fn records_are_judged_by_the_definition() {
    checks::refusals(RIGHT, 54, 8_000).unwrap();
}

#[test]
fn entries_that_do_not_count_change_nothing() {
    let mut rng = Rng::new(52);
    for _ in 0..1_500 {
        let set = sets::any(&mut rng);
        let mut untidy = set;
        records::garbage(&mut rng, &mut untidy);
        assert!(same(&set, &untidy) && same(&untidy, &set));
        assert_eq!(check(&untidy), Refusal::NONE);
        assert_eq!(verdict(&untidy), verdict(&set));
        let flow = rng.below(66) as u32;
        assert_eq!(bound(&untidy, flow), bound(&set, flow));
        let state = records::state(&mut rng, &set);
        assert_eq!(step(&untidy, &state), step(&set, &state));
    }
}

#[test]
fn a_used_entry_makes_another_set() {
    let set = set_of(P1_TEXT);
    let changes: [fn(&mut Set); 7] = [
        |set| set.map = 1,
        |set| set.count = 1,
        |set| set.flows[1].period = 21,
        |set| set.flows[1].deadline = 19,
        |set| set.flows[1].start = 1,
        |set| set.flows[1].route[2] = 6,
        |set| set.flows[1].nodes = 2,
    ];
    for change in changes {
        let mut other = set;
        change(&mut other);
        assert!(!same(&set, &other));
    }
}

#[test]
fn any_record_is_answered_and_refusals_give_zeros() {
    let mut rng = Rng::new(53);
    let (mut seen, mut buffer) = ([0; 14], vec![9; 9_000]);
    for _ in 0..6_000 {
        let set = records::record(&mut rng);
        let state = records::state(&mut rng, &set);
        let (refusal, flow) = (check(&set), rng.below(80) as u32);
        seen[usize::from(refusal.number)] += 1;
        assert!(same(&set, &set));
        let answers = (verdict(&set), bound(&set, flow), step(&set, &state));
        if refusal.refuses() {
            assert_eq!(answers.0, Verdict { refusal, ..Verdict::default() });
            assert_eq!(answers.1, Bound { refusal, ..Bound::default() });
            assert_eq!((answers.2.refusal, answers.2.state), (refusal, state));
            assert_eq!(answers.2.slot, Default::default());
            assert_eq!(write(&set, &mut buffer).refusal, refusal);
            assert!(buffer.iter().all(|&byte| byte == 9));
        }
    }
    assert!((2..=9).all(|number| seen[number] > 0), "{seen:?}");
}

#[test]
fn the_set_is_tested_before_13_12_11_and_10() {
    let bad = Set { map: 0, ..set_of(P1_TEXT) };
    let worst = State { slot: u32::MAX, sent: [255; 64] };
    assert_eq!(bound(&bad, 99).refusal, Refusal::at(2, 1));
    assert_eq!(step(&bad, &worst).refusal, Refusal::at(2, 1));
    assert_eq!(write(&bad, &mut []).refusal, Refusal::at(2, 1));
    let good = set_of(P1_TEXT);
    assert_eq!(bound(&good, 2), Bound { refusal: Refusal::at(13, 0), ..Bound::default() });
    assert_eq!(bound(&good, u32::MAX).refusal, Refusal::at(13, 0));
    assert_eq!(step(&good, &worst).refusal, Refusal::at(12, 0));
    assert_eq!(write(&good, &mut []).refusal, Refusal::at(10, 0));
}
