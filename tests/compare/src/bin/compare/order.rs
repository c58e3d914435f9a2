//! The two orders of priority, each with what both planners call by it: slots, runs and programs are compared in one place for either.

use crate::{calls, ranking, Tally};
use compare::{Ran, Record, Stepped, Written};
use second::host::{fixed_step_of_text, step_of_text};
use second::machine::{MachineWith, BY_DEADLINE, BY_NUMBER};
use second::{slip, Refusal, Set, Slot, State, Step};

/// What both planners call by one order.
pub struct Order {
    /// What is printed where they differ.
    pub name: &'static str,
    pub step: fn(&Record, &State) -> Stepped,
    pub second_step: fn(&Set, &State) -> Step,
    pub run: fn(&Record, u32) -> Ran,
    /// The second planner's machine for a set; none where the set is refused.
    pub second_machine: fn(&Set) -> Option<Steps>,
    pub slot: fn(&[u8], &mut [u8], &mut [u8]) -> Written,
    pub second_slot: fn(&[u8], &mut [u8], &mut [u8]) -> second::Written,
    pub program: fn(&[u8], &mut [u8]) -> Written,
    pub second_program: fn(&[u8]) -> Vec<u8>,
    /// Counts a refusal of what a user holds.
    pub count: fn(&mut Tally, Refusal),
}

/// A machine's steps.
pub type Steps = Box<dyn FnMut(&mut State, &mut Slot)>;

/// Document 01's: earlier absolute deadline, then lower flow number.
pub const DEADLINE: Order = Order {
    name: "by deadline",
    step: Record::step,
    second_step: second::step,
    run: Record::run,
    second_machine: steps::<BY_DEADLINE>,
    slot: compare::text_slot,
    second_slot: step_of_text,
    program: compare::plan,
    second_program: second::plan,
    count: calls::count,
};

/// Request 4's: lower flow number.
pub const NUMBER: Order = Order {
    name: "by flow number",
    step: Record::fixed_step,
    second_step: second::fixed_step,
    run: Record::fixed_run,
    second_machine: steps::<BY_NUMBER>,
    slot: compare::text_fixed_slot,
    second_slot: fixed_step_of_text,
    program: compare::fixed,
    second_program: second::fixed_text,
    count: ranking::count,
};

fn steps<const ORDER: u8>(set: &Set) -> Option<Steps> {
    let mut machine = MachineWith::<{ slip::NONE }, ORDER>::new(set).ok()?;
    Some(Box::new(move |state, slot| {
        machine.step(state, slot);
    }))
}
