//! What C sees: the set as text, the state as 68 bytes, the `send` lines in a second buffer.

use crate::checks::{set_of, P1_TEXT, PAPER};
use second::host::{all_bounds_of_text, bound_of_text, bytes_of_state, state_of_bytes, step_of_text, verdict_of_text};
use second::inputs::{records, texts, Rng};
use second::{bound, read, step, verdict, Bound, Refusal, State, Verdict, Written};

#[test]
fn a_state_has_68_bytes_lowest_first() {
    let mut state = State { slot: 0x1234_5678, ..State::FRESH };
    (state.sent[0], state.sent[63]) = (7, 9);
    let bytes = bytes_of_state(&state);
    assert_eq!((&bytes[..5], bytes[67]), (&[0x78, 0x56, 0x34, 0x12, 7][..], 9));
    assert_eq!(state_of_bytes(&bytes), Some(state));
    for length in [0, 4, 64, 67] {
        assert_eq!(state_of_bytes(&bytes[..length]), None);
    }
}

#[test]
fn a_step_writes_the_state_and_the_send_lines() {
    let (mut state, mut buffer) = ([0; 68], [b'.'; 40]);
    let written = step_of_text(P1_TEXT.as_bytes(), &mut state, &mut buffer);
    let line = b"send\t0\t0\t1\t2\t0\t11\n";
    assert_eq!(written, Written { refusal: Refusal::NONE, bytes: line.len() });
    assert_eq!(&buffer[..line.len()], line);
    assert!(buffer[line.len()..].iter().all(|&byte| byte == b'.'));
    assert_eq!((state[0], state[4], state[5]), (1, 1, 0));
}

#[test]
fn room_is_asked_for_this_slots_lines_only() {
    let text = PAPER[2].text.as_bytes();
    let length = 4 * "send\t0\t0\t1\t2\t0\t11\n".len();
    let (mut state, mut short) = ([0; 68], vec![b'.'; length - 1]);
    let refused = Written { refusal: Refusal::at(10, 0), bytes: 0 };
    assert_eq!(step_of_text(text, &mut state, &mut short), refused);
    assert!(state == [0; 68] && short.iter().all(|&byte| byte == b'.'));
    let mut exact = vec![b'.'; length];
    assert_eq!(step_of_text(text, &mut state, &mut exact).bytes, length);
    // Slot 1 is idle and needs no room.
    assert_eq!(step_of_text(text, &mut state, &mut []), Written::default());
    assert_eq!(state[0], 2);
}

#[test]
fn refusals_come_in_the_order_of_the_document() {
    let text = P1_TEXT.as_bytes();
    let mut state = vec![255; 67];
    assert_eq!(step_of_text(b"set\t0\n", &mut state, &mut []).refusal, Refusal::in_field(2, 1, 2));
    assert_eq!(step_of_text(text, &mut state, &mut []).refusal, Refusal::at(12, 0));
    let mut state = bytes_of_state(&State { slot: 4_000_000_000, ..State::FRESH });
    assert_eq!(step_of_text(text, &mut state, &mut []).refusal, Refusal::at(11, 0));
    state[4] = 3;
    assert_eq!(step_of_text(text, &mut state, &mut []).refusal, Refusal::at(12, 0));
    assert_eq!(step_of_text(text, &mut [0; 68], &mut []).refusal, Refusal::at(10, 0));
    assert_eq!(bound_of_text(b"flow", 99).refusal, Refusal::in_field(1, 1, 1));
    assert_eq!(bound_of_text(text, 2), Bound { refusal: Refusal::at(13, 0), ..Bound::default() });
}

#[test]
fn large_slots_are_written_in_full() {
    let set = set_of(P1_TEXT);
    let mut state = bytes_of_state(&State { slot: 3_999_999_980, ..State::FRESH });
    let mut buffer = [0; 99];
    let written = step_of_text(P1_TEXT.as_bytes(), &mut state, &mut buffer);
    assert_eq!(&buffer[..written.bytes], b"send\t3999999980\t0\t1\t2\t0\t11\n");
    assert_eq!(set.count, 2);
}

#[test]
fn answers_over_text_are_those_over_the_record() {
    let mut rng = Rng::new(81);
    for _ in 0..3_000 {
        let text = texts::any(&mut rng);
        let (read, flow) = (read(&text), rng.below(66) as u32);
        if read.refusal.refuses() {
            assert_eq!(verdict_of_text(&text), Verdict { refusal: read.refusal, ..Verdict::default() });
            assert_eq!(bound_of_text(&text, flow), Bound { refusal: read.refusal, ..Bound::default() });
        } else {
            assert_eq!(verdict_of_text(&text), verdict(&read.set));
            assert_eq!(bound_of_text(&text, flow), bound(&read.set, flow));
        }
    }
}

#[test]
fn all_bounds_are_those_of_each_flow() {
    // P1: C, basic, tightened, deadline of both flows; 8 numbers are needed and the further ones stay.
    let mut table = [9; 9];
    assert_eq!(all_bounds_of_text(P1_TEXT.as_bytes(), &mut table), (Refusal::NONE, 8));
    assert_eq!(table, [2, 4, 2, 8, 2, 6, 6, 20, 9]);
    assert_eq!(all_bounds_of_text(P1_TEXT.as_bytes(), &mut [0; 7]), (Refusal::at(10, 0), 0));
    let mut rng = Rng::new(83);
    for _ in 0..1_000 {
        let (text, mut table) = (texts::any(&mut rng), [7; 256]);
        let (refusal, numbers) = all_bounds_of_text(&text, &mut table);
        let read = read(&text);
        assert_eq!((refusal, numbers), (read.refusal, 4 * usize::from(read.set.count)));
        for (k, row) in (0..).zip(table[..numbers].chunks(4)) {
            let bound = bound(&read.set, k);
            assert_eq!(row, [bound.c, bound.basic, bound.tightened, bound.deadline]);
        }
        assert!(table[numbers..].iter().all(|&number| number == 7));
    }
}

#[test]
fn a_refused_step_leaves_both_buffers_alone() {
    let mut rng = Rng::new(82);
    let mut seen = [0; 14];
    for _ in 0..8_000 {
        let text = texts::any(&mut rng);
        let read = read(&text);
        let (mut state, mut buffer) = (records::state_bytes(&mut rng, &read.set), vec![b'.'; rng.below(80)]);
        let (before, room) = (state.clone(), buffer.len());
        let written = step_of_text(&text, &mut state, &mut buffer);
        seen[usize::from(written.refusal.number)] += 1;
        assert!(buffer[written.bytes..].iter().all(|&byte| byte == b'.') && buffer.len() == room);
        if written.refusal.refuses() {
            assert_eq!((written.bytes, &state), (0, &before));
            continue;
        }
        let given = state_of_bytes(&before).unwrap();
        let step = step(&read.set, &given);
        assert_eq!(state_of_bytes(&state), Some(step.state));
        let mut lines = String::new();
        for sent in &step.slot.sends {
            let (from, to) = (sent.from, sent.to);
            lines +=
                &format!("send\t{}\t{}\t{from}\t{to}\t{}\t{}\n", given.slot, sent.flow, sent.attempt, sent.channel);
        }
        assert_eq!(&buffer[..written.bytes], lines.as_bytes());
    }
    assert!([1, 2, 3, 4, 5, 6, 7, 8, 9, 10, 11, 12].iter().all(|&number| seen[number] > 0), "{seen:?}");
}
