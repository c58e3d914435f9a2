//! Document 02, request 4, plants that run fixed priority: the test, its answers over records and texts, and the program's
//! text. Its slot machine is document 01's with another sort key ([`FixedMachine`]).

use crate::check::check;
use crate::delay::{conflicts, Others};
use crate::machine::FixedMachine;
use crate::plan::{put_slots, refused, MOST_BYTES};
use crate::read::read;
use crate::record::{Refusal, Set, MOST_FLOWS};
use crate::slip;
use crate::write::put_line;

/// The verdict of the test for fixed priority; "no" and 0 where refused.
#[derive(Clone, Copy, Debug, Default, PartialEq, Eq)]
pub struct FixedVerdict {
    /// The record's or the text's refusal.
    pub refusal: Refusal,
    /// Whether the test admits.
    pub admitted: bool,
    /// How many flows were judged, the first over its deadline among them.
    pub judged: u32,
}

/// The bound of one flow; zeros and "no" where refused.
#[derive(Clone, Copy, Debug, Default, PartialEq, Eq)]
pub struct FixedBound {
    /// The set's own refusal, or 13.
    pub refusal: Refusal,
    /// C.
    pub c: u32,
    /// The bound, 0 of an unjudged flow.
    pub bound: u32,
    /// D.
    pub deadline: u32,
    /// Whether the flow was judged.
    pub judged: bool,
}

/// The verdict on any record.
pub fn fixed_verdict(set: &Set) -> FixedVerdict {
    verdict_on(set, check(set))
}

/// The bound of the flow of that number, for any record: the set's own refusal, then 13.
pub fn fixed_bound(set: &Set, flow: u32) -> FixedBound {
    bound_in(set, check(set), flow)
}

/// The verdict on a text: the reader's refusals come first.
pub fn fixed_verdict_of_text(text: &[u8]) -> FixedVerdict {
    let read = read(text);
    verdict_on(&read.set, read.refusal)
}

/// The bound of the flow of that number in a text.
pub fn fixed_bound_of_text(text: &[u8], flow: u32) -> FixedBound {
    let read = read(text);
    bound_in(&read.set, read.refusal, flow)
}

fn verdict_on(set: &Set, refusal: Refusal) -> FixedVerdict {
    if refusal.refuses() {
        return FixedVerdict { refusal, ..FixedVerdict::default() };
    }
    fixed_of(set).verdict()
}

fn bound_in(set: &Set, refusal: Refusal, flow: u32) -> FixedBound {
    if refusal.refuses() {
        return FixedBound { refusal, ..FixedBound::default() };
    }
    fixed_of(set).of_flow(flow)
}

/// What the test finds out about a good set; entries beyond the last flow are 0.
#[derive(Clone, Copy, Debug, PartialEq, Eq)]
pub struct Fixed {
    /// How many flows there are.
    pub count: usize,
    /// C of each flow.
    pub c: [u32; MOST_FLOWS],
    /// D of each flow.
    pub deadline: [u32; MOST_FLOWS],
    /// The bounds, 0 of those that are not judged.
    pub bound: [u32; MOST_FLOWS],
    /// How many flows are judged: the first ones.
    pub judged: usize,
}

impl Fixed {
    /// How many flows come before the first one over its deadline: those that keep their bounds. All of an admitted set.
    pub fn kept(&self) -> usize {
        (0..self.judged).take_while(|&k| self.bound[k] <= self.deadline[k]).count()
    }

    /// The verdict. With no flows the test admits.
    pub fn verdict(&self) -> FixedVerdict {
        FixedVerdict { refusal: Refusal::NONE, admitted: self.kept() == self.count, judged: self.judged as u32 }
    }

    /// The bound of the flow of that number, or refusal 13.
    pub fn of_flow(&self, flow: u32) -> FixedBound {
        let k = flow as usize;
        if k >= self.count {
            return FixedBound { refusal: Refusal::at(13, 0), ..FixedBound::default() };
        }
        let (c, bound, deadline) = (self.c[k], self.bound[k], self.deadline[k]);
        FixedBound { refusal: Refusal::NONE, c, bound, deadline, judged: k < self.judged }
    }
}

/// The test of a good set.
pub fn fixed_of(set: &Set) -> Fixed {
    fixed_with::<{ slip::NONE }>(set)
}

/// The same with one of the wrong rules put in for the tests of the tests.
pub fn fixed_with<const SLIP: u8>(set: &Set) -> Fixed {
    let flows = set.used();
    let (nothing, mut others) = ([0; MOST_FLOWS], vec![Others::NONE; flows.len()]);
    let mut fixed = Fixed { count: flows.len(), c: nothing, deadline: nothing, bound: nothing, judged: 0 };
    for (k, flow) in flows.iter().enumerate() {
        (fixed.c[k], fixed.deadline[k]) = (flow.c(), flow.deadline.into());
    }
    if flows.len() > 1 {
        conflicts(flows, &mut others);
    }
    // Flows are judged in order; after the first over its deadline the rest keep bound 0.
    for (k, other) in others.iter().enumerate() {
        fixed.bound[k] = bound_after::<SLIP>(set, &fixed, k, other);
        fixed.judged = k + 1;
        if fixed.bound[k] > fixed.deadline[k] && SLIP != slip::JUDGE_ON {
            fixed.bound[k] = if SLIP == slip::OVER_IS_ZERO { 0 } else { fixed.bound[k] };
            break;
        }
    }
    fixed
}

/// The bound of flow k after those before it: C + ΣX + (ΣW − ΣX) / m over l below k, where the whole share W is n·C of l
/// and the conflict share X is n·S. The flows before it are within their deadlines, so 32 bits hold the sums: n·C is at
/// most D + bound + C of l, some 131,000.
fn bound_after<const SLIP: u8>(set: &Set, fixed: &Fixed, k: usize, other: &Others) -> u32 {
    let (mut whole, mut conflict) = (0, 0);
    for l in 0..if SLIP == slip::OWN_PACKETS { k + 1 } else { k } {
        let n = packets::<SLIP>(fixed.deadline[k], fixed.bound[l], set.flows[l].period.into());
        whole += n * fixed.c[l];
        conflict += n * u32::from(other.s[l]);
    }
    conflict = if SLIP == slip::SHARE_CONFLICTS { 0 } else { conflict };
    fixed.c[k] + conflict + (whole - conflict) / set.m()
}

/// n: D of k + bound of l − 1, divided by T of l and rounded up.
fn packets<const SLIP: u8>(deadline: u32, bound: u32, period: u32) -> u32 {
    match SLIP {
        slip::ROUND_DOWN => (deadline + bound - 1) / period,
        slip::NO_BOUND => (deadline - 1).div_ceil(period),
        slip::BOUND_OF_ONE => deadline.div_ceil(period),
        slip::NO_LESS_ONE => (deadline + bound).div_ceil(period),
        // cut: a bound above its deadline can double from flow to flow
        slip::JUDGE_ON => (deadline + bound.min(100_000) - 1).div_ceil(period),
        _ => (deadline + bound - 1).div_ceil(period),
    }
}

/// What the program `fixed` prints for an input: the verdict, each flow's bound and the `send` lines through slot 11, or one
/// line with the refusal.
pub fn fixed_text(input: &[u8]) -> Vec<u8> {
    if input.len() > MOST_BYTES {
        return refused(Refusal::at(10, 0));
    }
    let read = read(input);
    if read.refusal.refuses() {
        return refused(read.refusal);
    }
    let (fixed, mut machine) = (fixed_of(&read.set), FixedMachine::prepared(&read.set, 0));
    let mut text = Vec::new();
    put_fixed(&mut text, &fixed);
    put_slots(&mut text, |state, slot| {
        machine.step(state, slot);
    });
    text
}

/// `fixed`: admitted, how many are judged. `bound`: flow, C, bound, deadline, judged.
fn put_fixed(text: &mut Vec<u8>, fixed: &Fixed) {
    let verdict = fixed.verdict();
    put_line(text, b"fixed", &[verdict.admitted.into(), verdict.judged.into()]);
    for k in 0..fixed.count as u32 {
        let FixedBound { c, bound, deadline, judged, .. } = fixed.of_flow(k);
        put_line(text, b"bound", &[k.into(), c.into(), bound.into(), deadline.into(), judged.into()]);
    }
}
