//! The tests of the tests: each wrong rule is put in, and the very checks that the right rules pass must fail.

use crate::by_number;
use crate::checks::{self, fixed_machine_slip, fixed_slip, machine_slip, planner_slip, reader_slip, record_slip};
use crate::checks::{set_of, superframe_slip, Rules, L2_TEXT, RIGHT};
use crate::loading;
use second::inputs::ranked;
use second::{slip, Set};

/// Which checks catch a slip: the paper's sets, the refusals by the definition, the greatest list by search, the bounds
/// and the slots by the definition, and demand 3 by simulation, which must catch it whatever the seed.
#[derive(Debug)]
struct Caught {
    paper: bool,
    refusals: bool,
    greatest: bool,
    bounds: bool,
    slots: bool,
    demand3: bool,
}

fn caught(rules: Rules) -> Caught {
    Caught {
        paper: checks::paper(rules).is_err(),
        refusals: checks::refusals(rules, 20, 1_000).is_err(),
        greatest: checks::greatest(rules, 21, 1_000).is_err(),
        bounds: checks::bounds(rules, 22, 1_000).is_err(),
        slots: checks::slots(rules, 23, 1_000).is_err(),
        demand3: [24, 25, 26].iter().all(|&seed| checks::demand3(rules, seed, 3_000).is_err()),
    }
}

/// Which checks of request 2 catch a slip: its sets, the hyper-periods and the tables by the definition, and the table
/// repeated beside the machine.
#[derive(Debug)]
struct CaughtLoading {
    paper: bool,
    hypers: bool,
    tables: bool,
    repeats: bool,
}

fn caught_loading(rules: Rules) -> CaughtLoading {
    CaughtLoading {
        paper: loading::paper(rules).is_err(),
        hypers: loading::hypers(rules, 27, 500).is_err(),
        tables: loading::tables(rules, 28, 200).is_err(),
        repeats: loading::repeats(rules, 29, 500).is_err(),
    }
}

/// Which checks of request 3 catch a slip: its texts, those with a long line, those with faults put in, and any by the
/// definition.
fn caught_fields(rules: Rules) -> [bool; 4] {
    let drawn = (checks::damaged_texts(rules, 30, 50), checks::texts(rules, 31, 3_000));
    [checks::named_texts(rules), checks::long_lines(rules), drawn.0, drawn.1].map(|found| found.is_err())
}

/// Which checks of request 4 catch a slip: its sets, the bounds and the slots by the definition, and demand 3 by simulation
/// of tight sets and of chains, each of which must catch it whatever the seed.
#[derive(Debug, PartialEq)]
struct CaughtByNumber {
    paper: bool,
    bounds: bool,
    slots: bool,
    demand3: bool,
    chains: bool,
}

fn caught_by_number(rules: Rules) -> CaughtByNumber {
    let seeds = [32, 33, 34];
    CaughtByNumber {
        paper: by_number::paper(rules).is_err(),
        bounds: by_number::bounds(rules, 30, 1_000).is_err(),
        slots: by_number::slots(rules, 31, 1_000).is_err(),
        demand3: seeds.iter().all(|&seed| by_number::demand3(rules, seed, 2_000).is_err()),
        chains: seeds.iter().all(|&seed| by_number::chains(rules, seed, 2_000).is_err()),
    }
}

/// A slip in the test for fixed priority: the request's sets and the definition catch it, and these of the simulations.
fn hold_fixed(rules: Rules, demand3: bool, chains: bool) {
    let wanted = CaughtByNumber { paper: true, bounds: true, slots: false, demand3, chains };
    assert_eq!(caught_by_number(rules), wanted);
}

#[test]
fn the_right_rules_pass_every_check() {
    let none = caught(RIGHT);
    assert!(!(none.paper || none.refusals || none.greatest || none.bounds || none.slots || none.demand3));
    let none = caught_loading(RIGHT);
    assert!(!(none.paper || none.hypers || none.tables || none.repeats));
    assert_eq!(caught_fields(RIGHT), [false; 4]);
    let none = caught_by_number(RIGHT);
    assert!(!(none.paper || none.bounds || none.slots || none.demand3 || none.chains));
}

#[test]
fn packets_rounded_down_are_caught() {
    let rules = fixed_slip::<{ slip::ROUND_DOWN }>();
    hold_fixed(rules, true, true);
    // X5: flow 1's bound would be 1, and its packet of slot 7 takes 2.
    assert_eq!((rules.fixed)(&named("X5")).bound[..2], [1, 1]);
}

#[test]
fn packets_without_the_bound_of_l_are_caught() {
    let rules = fixed_slip::<{ slip::NO_BOUND }>();
    hold_fixed(rules, true, true);
    // X4: flow 2's bound would be 3, within its deadline, and slot 5 drops its packet.
    let fixed = (rules.fixed)(&named("X4"));
    assert_eq!((fixed.bound[2], fixed.verdict().admitted), (3, true));
}

/// As in the usual analysis for one processor, where nothing is held up that does not hold up all others: tight sets hardly
/// ever show it, chains always do.
#[test]
fn packets_that_are_never_held_up_are_caught_by_chains() {
    let rules = fixed_slip::<{ slip::BOUND_OF_ONE }>();
    hold_fixed(rules, false, true);
    assert_eq!((rules.fixed)(&named("X4")).bound[2], 3);
}

/// One packet too many is only looser, so no run shows it: X2's bound does.
#[test]
fn packets_without_less_one_are_caught_by_their_bounds() {
    let rules = fixed_slip::<{ slip::NO_LESS_ONE }>();
    hold_fixed(rules, false, false);
    assert_eq!((rules.fixed)(&named("X2")).bound[..2], [1, 4]);
}

#[test]
fn judging_after_the_first_over_its_deadline_is_caught() {
    hold_fixed(fixed_slip::<{ slip::JUDGE_ON }>(), false, false);
}

#[test]
fn a_bound_of_0_for_the_flow_over_its_deadline_is_caught() {
    hold_fixed(fixed_slip::<{ slip::OVER_IS_ZERO }>(), true, true);
}

#[test]
fn counting_a_flows_own_packets_is_caught() {
    hold_fixed(fixed_slip::<{ slip::OWN_PACKETS }>(), false, false);
}

#[test]
fn dividing_the_conflict_share_is_caught() {
    hold_fixed(fixed_slip::<{ slip::SHARE_CONFLICTS }>(), true, true);
}

#[test]
fn the_higher_number_first_is_caught() {
    let by = caught_by_number(fixed_machine_slip::<{ slip::HIGHER_FIRST }>());
    assert!(by.paper && by.slots && by.demand3 && by.chains);
}

#[test]
fn the_earlier_deadline_first_is_caught() {
    let by = caught_by_number(Rules { fixed_machine: RIGHT.machine, ..RIGHT });
    assert!(by.paper && by.slots && by.demand3 && by.chains);
}

/// One of request 4's sets.
fn named(name: &str) -> Set {
    set_of(&ranked::named().iter().find(|row| row.name.starts_with(name)).unwrap().text)
}

#[test]
fn naming_the_earlier_of_two_equal_nodes_is_caught() {
    assert_eq!(caught_fields(reader_slip::<{ slip::EARLIER_NODE }>()), [true, false, true, true]);
}

#[test]
fn naming_the_period_for_the_deadline_is_caught() {
    assert_eq!(caught_fields(reader_slip::<{ slip::PERIOD_FOR_DEADLINE }>()), [true, false, true, true]);
}

#[test]
fn naming_a_field_for_a_missing_lf_is_caught() {
    assert_eq!(caught_fields(reader_slip::<{ slip::LF_FIELD }>()), [true; 4]);
}

#[test]
fn naming_the_map_for_a_number_too_many_is_caught() {
    assert_eq!(caught_fields(reader_slip::<{ slip::MAP_FOR_SURPLUS }>()), [true, false, true, true]);
}

#[test]
fn naming_no_field_of_an_empty_line_is_caught() {
    assert_eq!(caught_fields(reader_slip::<{ slip::EMPTY_LINE }>()), [true, false, true, true]);
}

#[test]
fn ending_the_search_with_the_fields_of_the_longest_good_line_is_caught() {
    assert_eq!(caught_fields(reader_slip::<{ slip::KEPT_FIELDS }>()), [true; 4]);
}

#[test]
fn counting_fields_in_16_bits_is_caught() {
    assert_eq!(caught_fields(reader_slip::<{ slip::SHORT_COUNT }>()), [false, true, false, false]);
}

#[test]
fn a_product_for_the_least_common_multiple_is_caught() {
    let by = caught_loading(superframe_slip::<{ slip::PRODUCT }>());
    assert!(by.paper && by.hypers);
}

#[test]
fn channels_by_the_tables_slot_are_caught() {
    let by = caught_loading(superframe_slip::<{ slip::TABLE_CHANNEL }>());
    assert!(by.paper && by.repeats);
}

#[test]
fn tries_for_numbers_are_caught() {
    let by = caught_loading(superframe_slip::<{ slip::TRY_FOR_NUMBER }>());
    assert!(by.paper && by.tables && by.repeats);
}

#[test]
fn counting_a_link_once_is_caught() {
    let rules = planner_slip::<{ slip::LINK_ONCE }>();
    let by = caught(rules);
    assert!(by.paper && by.greatest && by.bounds && by.demand3);
    // L2: flow 1's bound would be 3, and its packet takes 4 slots.
    let (set, delays) = (set_of(L2_TEXT), (rules.delays)(&set_of(L2_TEXT)));
    assert_eq!((delays.basic[1], delays.tightened[1]), (3, 3));
    assert!(checks::run(rules, &set, &delays.tightened, 10).is_err());
}

#[test]
fn refusing_a_node_that_stood_earlier_is_caught() {
    let by = caught(record_slip::<{ slip::NODE_TWICE }>());
    assert!(by.paper && by.refusals);
}

#[test]
fn dividing_each_share_is_caught() {
    let by = caught(planner_slip::<{ slip::DIVIDE_EACH }>());
    assert!(by.paper && by.greatest && by.bounds && by.demand3);
}

#[test]
fn ending_at_the_first_passed_over_is_caught() {
    let by = caught(machine_slip::<{ slip::END_AT_PASSED }>());
    assert!(by.paper && by.slots && by.demand3);
}

#[test]
fn counting_only_common_links_is_caught() {
    let by = caught(planner_slip::<{ slip::COMMON_LINKS }>());
    assert!(by.paper && by.greatest && by.bounds && by.demand3);
}

#[test]
fn one_packet_too_few_is_caught() {
    let by = caught(planner_slip::<{ slip::PACKET_TOO_FEW }>());
    assert!(by.paper && by.greatest && by.bounds && by.demand3);
}

#[test]
fn a_window_one_slot_short_is_caught() {
    let by = caught(planner_slip::<{ slip::SHORT_WINDOW }>());
    assert!(by.greatest && by.bounds && by.demand3);
}

#[test]
fn going_below_zero_is_caught() {
    let by = caught(planner_slip::<{ slip::BELOW_ZERO }>());
    assert!(by.greatest && by.bounds && by.demand3);
}

#[test]
fn ties_to_the_higher_flow_are_caught() {
    let by = caught(machine_slip::<{ slip::HIGHER_FIRST }>());
    assert!(by.paper && by.slots);
}

#[test]
fn entries_above_the_deadline_are_caught() {
    let by = caught(planner_slip::<{ slip::NO_CLAMP }>());
    assert!(by.greatest && by.bounds);
}

#[test]
fn stopping_when_schedulable_is_caught() {
    let by = caught(planner_slip::<{ slip::STOP_WHEN_ADMITTED }>());
    assert!(by.greatest && by.bounds);
}

#[test]
fn using_old_entries_is_caught() {
    assert!(caught(planner_slip::<{ slip::OLD_ENTRIES }>()).bounds);
}

#[test]
fn sending_late_packets_is_caught() {
    assert!(caught(machine_slip::<{ slip::KEEP_LATE }>()).slots);
}

#[test]
fn believing_the_count_at_release_is_caught() {
    let by = caught(machine_slip::<{ slip::KEEP_COUNT }>());
    assert!(by.slots && by.demand3);
}

#[test]
fn channels_that_stand_still_are_caught() {
    let by = caught(machine_slip::<{ slip::STILL_CHANNELS }>());
    assert!(by.paper && by.slots);
}
