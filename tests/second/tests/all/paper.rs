//! P1 to P11 and the plan of document 01, byte for byte, P11 as request 1 of document 02 has it; request 1's loops; and the
//! `refused` line of request 3.

use crate::checks::{self, set_of, L1_TEXT, L2_TEXT, P11_TEXT, P1_PLAN, P1_TEXT, P8_TEXT, PAPER, RIGHT};
use second::inputs::named;
use second::{bound, plan, read, step, superframe_text, verdict, Refusal, Set, State};

fn plan_of(text: &str) -> String {
    String::from_utf8(plan(text.as_bytes())).unwrap()
}

#[test]
fn p1_to_p8_p11_and_the_loops_are_as_written() {
    checks::paper(RIGHT).unwrap();
}

#[test]
fn the_plan_of_p1_is_byte_for_byte() {
    assert_eq!(plan_of(P1_TEXT), P1_PLAN);
}

/// The plan that `tests/plan/run` asks of the proved program: more than 7,500 bytes.
#[test]
fn the_long_plan_is_byte_for_byte() {
    let (set, planned) = (include_str!("../../../plan/long.set"), include_str!("../../../plan/long.plan"));
    assert_eq!(plan_of(set), planned);
}

#[test]
fn p1_has_three_rounds_and_its_margins() {
    let set = set_of(P1_TEXT);
    assert_eq!(verdict(&set).rounds, 3);
    assert_eq!([bound(&set, 0).margin, bound(&set, 1).margin], [6, 14]);
}

#[test]
fn p3_has_margin_minus_one_and_is_planned_all_the_same() {
    let mut wanted = String::from("verdict\t0\t0\t1\n");
    for flow in 0..5 {
        wanted += &format!("bound\t{flow}\t1\t2\t2\t1\t-1\n");
    }
    wanted += "send\t0\t0\t1\t2\t0\t11\nsend\t0\t1\t3\t4\t0\t12\nsend\t0\t2\t5\t6\t0\t13\nsend\t0\t3\t7\t8\t0\t14\n";
    wanted +=
        "send\t10\t0\t1\t2\t0\t13\nsend\t10\t1\t3\t4\t0\t14\nsend\t10\t2\t5\t6\t0\t11\nsend\t10\t3\t7\t8\t0\t12\n";
    assert_eq!(plan_of(PAPER[2].text), wanted);
}

#[test]
fn p8_sends_each_link_twice() {
    let (set, mut state, mut order) = (set_of(P8_TEXT), State::FRESH, Vec::new());
    for _ in 0..4 {
        let step = step(&set, &state);
        order.extend(step.slot.sends.iter().map(|sent| (sent.from, sent.to, sent.attempt)));
        state = step.state;
    }
    assert_eq!(order, [(1, 2, 0), (1, 2, 1), (2, 3, 0), (2, 3, 1)]);
}

const P11_PLAN: &str = "verdict\t1\t1\t1
bound\t0\t4\t4\t4\t4\t0
send\t0\t0\t1\t2\t0\t11
send\t1\t0\t1\t2\t1\t11
send\t2\t0\t2\t1\t0\t11
send\t3\t0\t2\t1\t1\t11
send\t10\t0\t1\t2\t0\t11
send\t11\t0\t1\t2\t1\t11
";

const L1_PLAN: &str = "verdict\t1\t1\t2
bound\t0\t4\t5\t5\t20\t15
bound\t1\t1\t5\t5\t20\t15
send\t0\t0\t1\t2\t0\t11
send\t1\t0\t2\t3\t0\t12
send\t2\t0\t3\t2\t0\t11
send\t3\t0\t2\t1\t0\t12
send\t4\t1\t4\t2\t0\t11
";

const L2_PLAN: &str = "verdict\t1\t1\t3
bound\t0\t3\t4\t3\t6\t3
bound\t1\t1\t4\t4\t10\t6
send\t0\t0\t1\t2\t0\t11
send\t1\t0\t2\t1\t0\t12
send\t2\t0\t1\t2\t0\t11
send\t3\t1\t2\t9\t0\t12
send\t10\t0\t1\t2\t0\t11
send\t11\t0\t2\t1\t0\t12
";

#[test]
fn the_plans_of_p11_and_the_loops_are_byte_for_byte() {
    for (text, planned) in [(P11_TEXT, P11_PLAN), (L1_TEXT, L1_PLAN), (L2_TEXT, L2_PLAN)] {
        assert_eq!(plan_of(text), planned);
    }
}

#[test]
fn p9_and_p10_are_refused() {
    for (text, number, line, field) in [("set\t1\nflow\t10\t3\t0\t2\t1\t2\t3\n", 9, 2, 0), ("set\t0\n", 2, 1, 2)] {
        let read = read(text.as_bytes());
        assert_eq!((read.refusal, read.set), (Refusal::in_field(number, line, field), Set::BLANK));
        assert_eq!(plan_of(text), format!("refused\t{number}\t{line}\t{field}\n"));
    }
}

#[test]
fn both_programs_print_the_field() {
    for (text, Refusal { number, line, field }) in named::fields() {
        let wanted = format!("refused\t{number}\t{line}\t{field}\n");
        assert_eq!((plan_of(&text), superframe_text(text.as_bytes())), (wanted.clone(), wanted.into_bytes()));
    }
}

#[test]
fn no_flows_are_admitted_in_one_round() {
    assert_eq!(plan_of("set\t65535\n"), "verdict\t1\t1\t1\n");
}

#[test]
fn input_above_16384_bytes_is_refused_unread() {
    let mut text = P1_TEXT.to_string() + &"x".repeat(16_384 - P1_TEXT.len());
    assert_eq!(plan_of(&text), "refused\t1\t4\t1\n");
    text.push('x');
    assert_eq!(plan_of(&text), "refused\t10\t0\t0\n");
    assert_eq!(plan_of(""), "refused\t1\t1\t0\n");
}
