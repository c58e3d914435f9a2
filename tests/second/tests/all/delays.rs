//! The two delay tests: C, S, shares, bounds, verdicts, rounds and margins.

use crate::checks::{self, set_of, RIGHT};
use crate::definition::{self, Equation};
use second::inputs::{named, ring64, sets, Rng};
use second::{bound, verdict, Delays, Planner, Set};

fn planner(set: &Set) -> Planner {
    Planner::new(set).map_err(|refusal| format!("{refusal:?}")).unwrap()
}

fn delays(set: &Set) -> Delays {
    planner(set).delays()
}

#[test]
fn tightened_bounds_are_the_values_at_the_greatest_list() {
    checks::greatest(RIGHT, 61, 20_000).unwrap();
}

#[test]
fn tiny_sets_have_both_kinds_of_bounds() {
    let mut rng = Rng::new(61);
    let (mut tightened, mut over, mut admitted) = (0, 0, 0);
    for _ in 0..4_000 {
        let delays = delays(&sets::tiny(&mut rng));
        let verdict = delays.verdict();
        tightened += usize::from(delays.basic != delays.tightened);
        over += usize::from(delays.basic != delays.tightened && !verdict.tightened);
        admitted += usize::from(verdict.tightened && !verdict.basic);
    }
    assert!(tightened > 200 && over > 100 && admitted > 100, "{tightened} {over} {admitted}");
}

#[test]
fn bounds_and_rounds_are_the_definitions() {
    checks::bounds(RIGHT, 62, 4_000).unwrap();
}

#[test]
fn s_and_shares_are_the_definitions() {
    let mut rng = Rng::new(63);
    for _ in 0..300 {
        let set = sets::any(&mut rng);
        let (planner, flows) = (planner(&set), set.used());
        for (k, l) in (0..flows.len()).flat_map(|k| (0..flows.len()).map(move |l| (k, l))).filter(|(k, l)| k != l) {
            let (c, s) = (definition::c(&flows[l]), definition::s(&flows[k], &flows[l]));
            assert_eq!(i64::from(planner.s(k, l)), s);
            let v = rng.within(0, usize::from(flows[l].deadline)) as u16;
            let (d, t) = (i64::from(flows[k].deadline), i64::from(flows[l].period));
            let r = (d % t - (i64::from(flows[l].deadline) - i64::from(v))).max(0);
            let wanted = (d / t * c + c.min(r), d / t * s + s.min(r));
            let (whole, conflict) = planner.shares(k, l, v);
            assert_eq!((i64::from(whole), i64::from(conflict)), wanted);
        }
    }
}

#[test]
fn rounds_are_never_above_their_limit() {
    let mut rng = Rng::new(64);
    for _ in 0..3_000 {
        let set = sets::any(&mut rng);
        let limit: u32 = set.used().iter().map(|flow| u32::from(flow.deadline) - flow.c()).sum();
        let delays = delays(&set);
        assert!(delays.rounds >= 1 && delays.rounds <= 1 + limit);
    }
}

#[test]
fn bounds_depend_on_no_order_of_flows() {
    let mut rng = Rng::new(65);
    for _ in 0..2_000 {
        let set = sets::any(&mut rng);
        let count = usize::from(set.count);
        let mut turned = set;
        turned.flows[..count].reverse();
        let (one, other) = (delays(&set), delays(&turned));
        for k in 0..count {
            assert_eq!(one.basic[k], other.basic[count - 1 - k]);
            assert_eq!(one.tightened[k], other.tightened[count - 1 - k]);
            assert_eq!(one.list[k], other.list[count - 1 - k]);
        }
    }
}

#[test]
fn verdicts_and_margins_follow_from_the_bounds() {
    let mut rng = Rng::new(66);
    for _ in 0..1_500 {
        let set = sets::any(&mut rng);
        let (verdict, delays) = (verdict(&set), delays(&set));
        let bounds: Vec<_> = (0..u32::from(set.count)).map(|k| delays.bound(k)).collect();
        assert!(bounds.is_empty() || bounds[0] == bound(&set, 0));
        assert_eq!(verdict.basic, bounds.iter().all(|bound| bound.basic <= bound.deadline));
        assert_eq!(verdict.tightened, bounds.iter().all(|bound| bound.margin >= 0));
        for (bound, flow) in bounds.iter().zip(set.used()) {
            assert_eq!((bound.c, bound.deadline), (flow.c(), flow.deadline.into()));
            assert_eq!(i64::from(bound.margin), i64::from(bound.deadline) - i64::from(bound.tightened));
            assert!(bound.c <= bound.tightened && bound.tightened <= bound.basic);
        }
    }
}

#[test]
fn a_flow_over_its_deadline_keeps_the_value_above_it() {
    // P6: the list's entry is the deadline 2, the bound is the value 3.
    let delays = delays(&set_of("set\t1\nflow\t10\t2\t0\t1\t1\t2\nflow\t10\t2\t0\t1\t3\t4\nflow\t10\t2\t0\t1\t5\t6\n"));
    assert_eq!((delays.list[0], delays.tightened[0], delays.bound(0).margin), (2, 3, -1));
}

#[test]
fn named_sets_have_the_bounds_found_by_hand() {
    for named in named::sets() {
        let set = set_of(&named.text);
        let (verdict, equation) = (verdict(&set), Equation::of(&set));
        let greatest = equation.values(&equation.rounds().0);
        assert_eq!((verdict.basic, verdict.tightened, verdict.rounds), named.verdict, "{}", named.name);
        for (flow, basic, tightened) in named.bounds {
            let bound = bound(&set, flow);
            assert_eq!((bound.basic, bound.tightened), (basic, tightened), "{}: flow {flow}", named.name);
            assert_eq!(greatest[flow as usize], i64::from(tightened), "{}: flow {flow}", named.name);
        }
    }
}

#[test]
fn the_greatest_numbers_fit() {
    // 63 flows send in every slot; the 64th has the longest window.
    let bound = bound(&set_of(&named::sets()[0].text), 63);
    assert_eq!((bound.basic, bound.tightened), (64 + 63 * 65_535, 64 + 63 * 65_535));
    assert_eq!(bound.margin, 65_535 - 64 - 63 * 65_535);
}

#[test]
fn the_ring_takes_thousands_of_rounds() {
    let ring = ring64();
    let delays = delays(&ring);
    assert!(delays.rounds > 4_000, "{}", delays.rounds);
    assert_eq!(delays.verdict().rounds, Equation::of(&ring).rounds().1);
}
