//! The second planner's own tests. `definition` is document 01 in its slowest words, `checks`, `loading` and `by_number` are
//! the checks that the right rules must pass and the slips must fail, and the other modules are the tests by subject.

mod by_number;
mod checks;
mod definition;
mod loading;

mod delays;
mod demand3;
mod fixed;
mod host;
mod inputs;
mod machine;
mod paper;
mod reader;
mod records;
mod run_only;
mod slips;
mod superframe;
mod tables;
