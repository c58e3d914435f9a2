//! The second planner: document 01, with what document 02 changes of it, written once more from the words alone, plainly,
//! to be compared with the proved planner and to measure its speed by. Nothing here is shared with the planner under test.
//!
//! One section of document 01 stands in one module: the flow set in [`record`], refusals in [`check`] and [`read`],
//! the writer in [`write`], the two delay tests in [`delay`], the slot machine in [`machine`], what C sees in
//! [`host`], the plan program in [`plan`]. Request 2 of document 02 stands in [`superframe`], and in [`table`] what it
//! says of lines; request 3 in [`field`]; request 4 in [`fixed`]. [`inputs`] draws sets, texts, records, states and tables from a seed, and [`slip`]
//! keeps the wrong rules that the tests must catch.
#![forbid(unsafe_code)]
#![warn(missing_docs)]

pub mod check;
pub mod delay;
pub mod field;
pub mod fixed;
pub mod host;
pub mod inputs;
pub mod machine;
pub mod plan;
pub mod read;
pub mod record;
pub mod slip;
pub mod superframe;
pub mod table;
pub mod write;

pub use check::check;
pub use delay::{bound, verdict, Bound, Delays, Planner, Verdict};
pub use fixed::{fixed_bound, fixed_text, fixed_verdict, Fixed, FixedBound, FixedVerdict};
pub use machine::{fixed_step, step, Delivered, FixedMachine, Machine, Slot, Step, Transmission};
pub use plan::plan;
pub use read::{read, Read};
pub use record::{same, Flow, Refusal, Set, State, LAST_MADE, REFUSALS};
pub use superframe::{channel, superframe, superframe_size, superframe_text, Superframe};
pub use table::{read_table, write_table};
pub use write::{write, Written};
