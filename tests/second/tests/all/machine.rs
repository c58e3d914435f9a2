//! The slot machine: every slot against the definition, and the rules that runs from the fresh state don't reach.

use crate::checks::{self, set_of, P1_TEXT, RIGHT};
use second::inputs::{named, records, sets, Rng};
use second::record::LAST_SLOT;
use second::{step, Delivered, Machine, Refusal, Set, Slot, State};

fn machine(set: &Set) -> Machine {
    Machine::new(set).map_err(|refusal| format!("{refusal:?}")).unwrap()
}

fn at(slot: u32, counts: &[u8]) -> State {
    let mut state = State { slot, ..State::FRESH };
    state.sent[..counts.len()].copy_from_slice(counts);
    state
}

#[test]
fn slots_from_any_state_are_the_definitions() {
    checks::slots(RIGHT, 71, 4_000).unwrap();
}

#[test]
fn a_machine_remembers_nothing_but_the_set() {
    let mut rng = Rng::new(72);
    for _ in 0..400 {
        let set = sets::any(&mut rng);
        let (mut machine, mut slot) = (machine(&set), Slot::default());
        for _ in 0..20 {
            let state = records::state(&mut rng, &set);
            let mut next = state;
            let refusal = machine.step(&mut next, &mut slot);
            let fresh = step(&set, &state);
            assert_eq!((refusal, next, &slot), (fresh.refusal, fresh.state, &fresh.slot));
        }
    }
}

#[test]
fn refusal_12_is_given_exactly_when() {
    let mut rng = Rng::new(73);
    for _ in 0..4_000 {
        let set = sets::any(&mut rng);
        let state = records::state(&mut rng, &set);
        let limit = |k: usize| set.used().get(k).map_or(0, |flow| flow.c());
        let bad = state.slot > LAST_SLOT || (0..64).any(|k| u32::from(state.sent[k]) > limit(k));
        let number = if bad { 12 } else { u8::from(state.slot == LAST_SLOT) * 11 };
        let answer = step(&set, &state);
        assert_eq!(answer.refusal, Refusal::at(number, 0));
        assert!(number == 0 || answer.state == state && answer.slot == Slot::default());
    }
}

#[test]
fn refusal_12_comes_before_11() {
    let set = set_of(P1_TEXT);
    assert_eq!(step(&set, &at(LAST_SLOT, &[2, 2])).refusal, Refusal::at(11, 0));
    assert_eq!(step(&set, &at(LAST_SLOT, &[3, 2])).refusal, Refusal::at(12, 0));
    assert_eq!(step(&set, &at(LAST_SLOT, &[2, 2, 1])).refusal, Refusal::at(12, 0));
    assert_eq!(step(&set, &at(LAST_SLOT + 1, &[])).refusal, Refusal::at(12, 0));
    // A count above C is bad even in a release slot.
    assert_eq!(step(&set, &at(0, &[3])).refusal, Refusal::at(12, 0));
}

#[test]
fn a_count_stays_until_the_first_release_and_is_none_there() {
    let set = set_of("set\t1\nflow\t10\t5\t3\t1\t1\t2\t3\n");
    let mut state = at(0, &[2]);
    for slot in 0..3 {
        let step = step(&set, &state);
        assert_eq!((step.state, step.slot), (at(slot + 1, &[2]), Slot::default()));
        state = step.state;
    }
    let release = step(&set, &state);
    assert_eq!(release.state, at(4, &[1]));
    assert_eq!(release.slot.sends.len(), 1);
}

#[test]
fn a_packet_is_delivered_and_dropped_in_its_own_slot_only() {
    let set = set_of("set\t1\nflow\t10\t5\t0\t1\t1\t2\t3\n");
    let delivery = step(&set, &at(4, &[1]));
    assert_eq!((delivery.slot.delivered, delivery.slot.dropped), (vec![Delivered { flow: 0, delay: 5 }], vec![]));
    let drop = step(&set, &at(4, &[0]));
    assert_eq!((drop.slot.sends.len(), drop.slot.dropped), (1, vec![0]));
    for counts in [0, 1, 2] {
        for slot in [5, 9] {
            assert_eq!(step(&set, &at(slot, &[counts])).slot, Slot::default());
        }
    }
    assert_eq!(step(&set, &at(4, &[2])).slot, Slot::default());
}

#[test]
fn named_sets_deliver_as_found_by_hand() {
    for named in named::sets() {
        let (mut state, mut found) = (State::FRESH, Vec::new());
        let (mut machine, mut slot) = (machine(&set_of(&named.text)), Slot::default());
        for t in 0..12 {
            machine.step(&mut state, &mut slot);
            found.extend(slot.delivered.iter().map(|packet| (t, packet.flow, packet.delay)));
        }
        assert!(named.delivered.is_none_or(|wanted| wanted == found), "{}: {found:?}", named.name);
    }
}

#[test]
fn reports_are_in_rising_flow_number() {
    // Flow 2 has the earliest deadline and is placed first, but is reported last.
    let text = "set\t7\nflow\t9\t3\t0\t1\t1\t2\nflow\t9\t2\t0\t1\t3\t4\nflow\t9\t1\t0\t1\t5\t6\n";
    let slot = step(&set_of(text), &State::FRESH).slot;
    let flows = |numbers: Vec<u8>| numbers;
    assert_eq!(flows(slot.sends.iter().map(|sent| sent.flow).collect()), [2, 1, 0]);
    assert_eq!(flows(slot.delivered.iter().map(|packet| packet.flow).collect()), [0, 1, 2]);
}

#[test]
fn channels_move_with_the_slot_over_a_map_with_gaps() {
    // Bits 0, 4, 15: channels 11, 15, 26.
    let set = set_of("set\t32785\nflow\t1\t1\t0\t1\t1\t2\nflow\t1\t1\t0\t1\t3\t4\n");
    let (mut machine, mut state, mut slot) = (machine(&set), State::FRESH, Slot::default());
    for wanted in [[11, 15], [15, 26], [26, 11], [11, 15]] {
        machine.step(&mut state, &mut slot);
        assert_eq!(slot.sends.iter().map(|sent| sent.channel).collect::<Vec<_>>(), wanted);
    }
}

#[test]
fn a_run_goes_up_to_the_limit() {
    let set = set_of(P1_TEXT);
    let (mut machine, mut state, mut slot) = (machine(&set), at(LAST_SLOT - 20, &[0, 0]), Slot::default());
    let mut sends = 0;
    while !machine.step(&mut state, &mut slot).refuses() {
        sends += slot.sends.len();
    }
    // 4,000,000,000 − 20 is a multiple of both periods: two packets of flow 0 and one of flow 1.
    assert_eq!((state.slot, sends), (LAST_SLOT, 6));
}
