//! The generator: what it draws is what it says, and no refusal and no pair of faults is missing.

use crate::checks::set_of;
use crate::definition;
use second::fixed::fixed_of;
use second::inputs::{ranked, records, sets, superframes, texts, Rng};
use second::{check, read, step, superframe_size, Flow, Planner, Refusal, Set, REFUSALS};

#[test]
fn the_same_seed_draws_the_same_inputs() {
    let (mut one, mut other) = (Rng::new(7), Rng::new(7));
    for _ in 0..200 {
        assert_eq!(texts::any(&mut one), texts::any(&mut other));
        assert_eq!(records::record(&mut one), records::record(&mut other));
    }
    assert_ne!(Rng::new(7).bits(), Rng::new(8).bits());
}

#[test]
fn drawn_sets_are_good() {
    let mut rng = Rng::new(91);
    for _ in 0..6_000 {
        assert_eq!(check(&sets::any(&mut rng)), Refusal::NONE);
    }
    assert_eq!(check(&sets::ring64()), Refusal::NONE);
    for full in [sets::full(&mut rng), sets::loops()] {
        assert_eq!((check(&full), full.count, full.m()), (Refusal::NONE, 64, 16));
    }
    assert!(sets::loops().used().iter().all(|flow| flow.nodes == 17 && returns(flow)));
}

#[test]
fn drawn_sets_lie_on_either_side_of_a_line() {
    let mut rng = Rng::new(92);
    let mut sides = [0; 4];
    let mut at_the_line = [0; 2];
    for _ in 0..3_000 {
        let set = sets::edge(&mut rng);
        let Ok(planner) = Planner::new(&set) else { panic!("a drawn set is refused") };
        let delays = planner.delays();
        let verdict = delays.verdict();
        sides[usize::from(verdict.basic) + 2 * usize::from(verdict.tightened)] += 1;
        for k in 0..u32::from(set.count) {
            let margin = delays.bound(k).margin;
            at_the_line[0] += usize::from(margin == 0);
            at_the_line[1] += usize::from(margin == -1);
        }
    }
    // What the basic test admits the tightened one admits, so one of the four is empty.
    assert!(sides[0] > 100 && sides[1] == 0 && sides[2] > 100 && sides[3] > 100, "{sides:?}");
    assert!(at_the_line.iter().all(|&times| times > 500), "{at_the_line:?}");
}

#[test]
fn every_refusal_occurs() {
    let mut rng = Rng::new(93);
    let mut seen = [[0; REFUSALS]; 3];
    for _ in 0..6_000 {
        let text = texts::any(&mut rng);
        seen[0][usize::from(read(&text).refusal.number)] += 1;
        seen[1][usize::from(check(&records::record(&mut rng)).number)] += 1;
        let set = sets::small(&mut rng);
        let state = records::state(&mut rng, &set);
        seen[2][usize::from(step(&set, &state).refusal.number)] += 1;
    }
    assert!((0..=9).all(|number| seen[0][number] > 50), "{seen:?}");
    assert!([0, 2, 3, 4, 5, 6, 7, 8, 9].iter().all(|&number| seen[1][number] > 50), "{seen:?}");
    assert!([0, 11, 12].iter().all(|&number| seen[2][number] > 50), "{seen:?}");
}

/// Nearly half are good, and 14, 15 and 16 occur; long ones lie on either side of the limit.
#[test]
fn superframes_are_good_and_refused_for_every_reason() {
    let mut rng = Rng::new(100);
    let (mut seen, mut long, mut tightened, mut returning) = ([0; REFUSALS], [0; REFUSALS], 0, 0);
    for _ in 0..4_000 {
        let set = superframes::any(&mut rng);
        assert_eq!(check(&set), Refusal::NONE);
        seen[usize::from(superframe_size(&set).refusal.number)] += 1;
        returning += usize::from(sets::returns(&set));
        let short = superframes::short(&mut rng);
        let verdict = second::verdict(&short);
        tightened += usize::from(verdict.tightened && !verdict.basic);
        assert!(short.used().iter().all(|flow| flow.start == 0) && superframe_size(&short).refusal.number != 16);
        long[usize::from(superframe_size(&superframes::long(&mut rng)).refusal.number)] += 1;
    }
    assert!(seen[0] > 1_500 && seen[14] > 1_000 && seen[15] > 200 && seen[16] > 50, "{seen:?}");
    assert!(long[0] > 2_000 && long[16] > 500, "{long:?}");
    assert!(tightened > 150 && returning > 1_000, "{tightened} {returning}");
}

/// Sets for fixed priority are good, admitted and not; and the first flow over its deadline is any but the first.
#[test]
fn ranked_sets_lie_on_either_side_of_the_line() {
    let mut rng = Rng::new(89);
    // a chain's routes never return
    let kinds: [(fn(&mut Rng) -> Set, usize); 4] =
        [(ranked::tight, 900), (ranked::chain, 0), (ranked::edge, 900), (ranked::any, 800)];
    for (draw, returns) in kinds {
        let (mut admitted, mut at_the_line, mut returning) = (0, [0; 2], 0);
        for _ in 0..2_000 {
            let set = draw(&mut rng);
            assert_eq!(check(&set), Refusal::NONE);
            let fixed = fixed_of(&set);
            admitted += usize::from(fixed.verdict().admitted);
            returning += usize::from(sets::returns(&set));
            let last = fixed.judged.saturating_sub(1);
            at_the_line[0] += usize::from(fixed.bound[last] == fixed.deadline[last]);
            at_the_line[1] += usize::from(fixed.bound[last] == fixed.deadline[last] + 1);
        }
        assert!((300..1_700).contains(&admitted), "{admitted}");
        assert!(at_the_line.iter().all(|&times| times > 90), "{at_the_line:?}");
        assert!(returning >= returns, "{returning}");
    }
}

/// Of a chain's flows all but the last have node 20, the last two have node 30, and no other node is shared.
#[test]
fn chains_meet_only_where_they_should() {
    let mut rng = Rng::new(90);
    for _ in 0..2_000 {
        let set = ranked::chain(&mut rng);
        let flows = set.used();
        let (last, before) = flows.split_last().unwrap();
        let touch = |one: &Flow, other: &Flow| one.used().iter().any(|node| other.used().contains(node));
        let (l, hs) = before.split_last().unwrap();
        assert!(touch(l, last) && !hs.is_empty());
        assert!(hs.iter().all(|h| touch(h, l) && !touch(h, last)));
    }
}

/// The numbers of the line that a damaged text is refused for.
fn numbers_of(damaged: texts::Damaged) -> Vec<i64> {
    let text = String::from_utf8(damaged.text).unwrap();
    let line = text.lines().nth(damaged.refusal.line - 1).unwrap();
    line.split('\t').skip(1).map(|field| field.parse().unwrap()).collect()
}

#[test]
fn damaged_lines_have_both_faults_of_every_pair() {
    let mut rng = Rng::new(94);
    for faults in texts::pairs().into_iter().filter(|faults| faults[0] > 3) {
        for _ in 0..100 {
            let numbers = numbers_of(texts::damaged(&mut rng, faults));
            let found = definition::faults(numbers[0], numbers[1], numbers[3], &numbers[4..]);
            assert!(faults.iter().all(|fault| found.contains(fault)), "{faults:?}, found {found:?} in {numbers:?}");
            assert_eq!(found.iter().min(), Some(&faults[0]));
        }
    }
    assert_eq!(texts::pairs().len(), 2 + 8 * 9 / 2);
}

#[test]
fn equal_neighbours_come_first_in_the_middle_and_last_in_every_pair() {
    let mut rng = Rng::new(96);
    for faults in texts::pairs().into_iter().filter(|faults| faults[0] > 1 && faults.contains(&8)) {
        let mut seen = [0; 3];
        let mut returning = 0;
        for _ in 0..200 {
            let numbers = numbers_of(texts::damaged(&mut rng, faults));
            let route = &numbers[4..];
            let last = route.len() - 1;
            for i in (1..=last).filter(|&i| route[i] == route[i - 1]) {
                seen[if i == 1 { 0 } else { 1 + usize::from(i == last) }] += 1;
            }
            returning +=
                usize::from((2..=last).any(|i| route[..i - 1].contains(&route[i]) && route[i] != route[i - 1]));
        }
        assert!(seen.iter().all(|&times| times > 20) && returning > 20, "{faults:?}: {seen:?}, {returning}");
    }
}

/// A 1 is put into no field, the word, the map or a number, a number too many and one behind the longest good line; and it
/// wins over every other fault of its line, whose field is often another.
#[test]
fn bad_fields_come_in_every_place_of_a_line() {
    let mut rng = Rng::new(88);
    for faults in texts::pairs().into_iter().filter(|faults| faults[0] == 1) {
        let mut seen = [0; 4];
        for _ in 0..400 {
            let Refusal { number, field, .. } = texts::damaged(&mut rng, faults).refusal;
            assert_eq!(number, 1);
            seen[field.min(3)] += 1;
        }
        assert!(seen[0] > 20 && seen[1] > 50 && seen[3] > 50, "{faults:?}: {seen:?}");
    }
    let mut places = [0; 24];
    for _ in 0..2_000 {
        places[texts::damaged(&mut rng, [1, 7]).refusal.field.min(23)] += 1;
        places[texts::damaged(&mut rng, [1, 1]).refusal.field.min(23)] += 1;
    }
    assert!(places.iter().all(|&times| times > 5), "{places:?}");
}

#[test]
fn half_of_the_sets_have_a_returning_node() {
    let mut rng = Rng::new(97);
    let kinds: [(&str, fn(&mut Rng) -> Set); 5] = [
        ("any", sets::any),
        ("tiny", sets::tiny),
        ("edge", sets::edge),
        ("tight", sets::tight),
        ("of a good text", |rng| read(&texts::good(rng)).set),
    ];
    for (name, draw) in kinds {
        let returning = (0..4_000).filter(|_| sets::returns(&draw(&mut rng))).count();
        assert!((2_000..3_900).contains(&returning), "{name}: {returning} of 4,000");
    }
}

/// What a returning route can be: a link that stands again, a node that returns in both routes of a pair that have one
/// in common, and such routes over nodes that a few bits do and do not tell apart.
#[test]
fn returning_routes_are_of_every_kind() {
    let mut rng = Rng::new(98);
    let (mut again, mut both, mut alike, mut longest) = (0, 0, 0, 0);
    for _ in 0..2_000 {
        let set = sets::any(&mut rng);
        let loops: Vec<&Flow> = set.used().iter().filter(|flow| returns(flow)).collect();
        let link_again = |flow: &Flow| {
            let links: Vec<&[u16]> = flow.used().windows(2).collect();
            (1..links.len()).any(|i| links[..i].contains(&links[i]))
        };
        again += usize::from(loops.iter().any(|flow| link_again(flow)));
        let touch = |one: &Flow, other: &Flow| one.used().iter().any(|node| other.used().contains(node));
        both += usize::from((1..loops.len()).any(|i| touch(loops[i], loops[i - 1])));
        let kind = |node: u16| (node % 512 + node / 512) % 512;
        let kinds =
            |flow: &Flow| flow.used().iter().any(|&node| node != flow.route[0] && kind(node) == kind(flow.route[0]));
        alike += usize::from(loops.iter().any(|flow| kinds(flow)));
        longest += usize::from(loops.iter().any(|flow| flow.nodes == 17));
    }
    assert!(again > 500 && both > 500 && alike > 100 && longest > 100, "{again} {both} {alike} {longest}");
}

fn returns(flow: &Flow) -> bool {
    let mut alone = Set { count: 1, ..Set::BLANK };
    alone.flows[0] = *flow;
    sets::returns(&alone)
}

#[test]
fn garbage_lies_only_where_nothing_counts() {
    let mut rng = Rng::new(95);
    let set = set_of("set\t1\nflow\t9\t9\t0\t1\t1\t2\n");
    let mut untidy = set;
    records::garbage(&mut rng, &mut untidy);
    assert_ne!(set, untidy);
    assert_eq!((set.map, set.count, set.flows[0].used()), (untidy.map, untidy.count, untidy.flows[0].used()));
}

#[test]
fn the_last_node_often_stands_once_more_behind_a_routes_end() {
    let mut rng = Rng::new(99);
    let mut again = [0; 3];
    for _ in 0..600 {
        let mut set = set_of("set\t1\nflow\t9\t9\t0\t1\t1\t2\n");
        set.flows[0].route[1] = rng.pick(&[0, 2]);
        records::garbage(&mut rng, &mut set);
        let behind = set.flows[0].route[2..].iter().take_while(|&&node| node == set.flows[0].route[1]).count();
        again[[0, 1, 2][behind.min(2)]] += 1;
        assert_eq!(check(&set), Refusal::NONE);
    }
    assert!(again.iter().all(|&times| times > 100), "{again:?}");
}
