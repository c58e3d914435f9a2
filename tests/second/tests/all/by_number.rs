//! The checks of request 4, as `checks` has those of document 01: the sets of the request, bounds and slots by the
//! definition, and demand 3 by fixed priority. The right rules pass them and the slips fail them.

use crate::checks::{claim, run_first, set_of, slots_of, Found, Rules};
use crate::definition;
use second::inputs::{ranked, Rng};
use second::{Set, Slot, State};

/// The request's sets: verdict, bounds, and what the slots up to 11 send, deliver and drop.
pub fn paper(rules: Rules) -> Found {
    for row in ranked::named() {
        let (name, set) = (row.name, set_of(&row.text));
        let fixed = (rules.fixed)(&set);
        let verdict = fixed.verdict();
        claim((verdict.admitted, verdict.judged) == (row.admitted, row.judged), || format!("{name}: {verdict:?}"))?;
        let bounds = &fixed.bound[..fixed.count];
        claim(bounds == row.bounds, || format!("{name}: {bounds:?}"))?;
        let (mut machine, mut state, mut slot) = ((rules.fixed_machine)(&set), State::FRESH, Slot::default());
        let (mut sends, mut delivered, mut dropped) = (Vec::new(), Vec::new(), Vec::new());
        for t in 0..12 {
            machine.step(&mut state, &mut slot);
            sends.extend(slot.sends.iter().map(|sent| (t, sent.flow)));
            delivered.extend(slot.delivered.iter().map(|packet| (t, packet.flow, packet.delay)));
            dropped.extend(slot.dropped.iter().map(|&flow| (t, flow)));
        }
        claim(sends == row.sends, || format!("{name}: sends {sends:?}"))?;
        claim(delivered == row.delivered, || format!("{name}: delivers {delivered:?}"))?;
        claim(dropped == row.dropped, || format!("{name}: drops {dropped:?}"))?;
    }
    Ok(())
}

/// Bounds, who is judged and the verdict of sets of every kind against the definition.
pub fn bounds(rules: Rules, seed: u64, draws: usize) -> Found {
    let mut rng = Rng::new(seed);
    for _ in 0..draws {
        let set = ranked::any(&mut rng);
        let (fixed, wanted) = ((rules.fixed)(&set), definition::fixed(&set));
        let flow = |k: usize| (i64::from(fixed.bound[k]), k < fixed.judged);
        let found: Vec<(i64, bool)> = (0..fixed.count).map(flow).collect();
        claim(found == wanted, || format!("{found:?}, not {wanted:?}, of {:?}", set.used()))?;
        let within = |(flow, &(bound, judged)): (&second::Flow, &(i64, bool))| judged && bound <= flow.deadline.into();
        let (verdict, admitted) = (fixed.verdict(), set.used().iter().zip(&wanted).all(within));
        let judged = wanted.iter().filter(|flow| flow.1).count();
        let same = (verdict.admitted, verdict.judged as usize) == (admitted, judged);
        claim(same, || format!("{verdict:?}, not {admitted}, {judged}, of {:?}", set.used()))?;
    }
    Ok(())
}

/// Slots of sets of every kind from any good state against the definition.
pub fn slots(rules: Rules, seed: u64, draws: usize) -> Found {
    slots_of(rules.fixed_machine, definition::fixed_slot, ranked::any, seed, draws)
}

/// How demand 3 by fixed priority fared over many sets.
#[derive(Default, Debug)]
pub struct Fared {
    /// Sets that the test admits, and those of them of which a packet that others held up took exactly its flow's bound.
    pub admitted: usize,
    pub attained: usize,
    /// Those of them of which the last flow did.
    pub last_attained: usize,
    /// Sets that it does not admit, of which two flows or more come before the first over its deadline; those of them
    /// attained in the same way; and those of which a later flow did lose a packet.
    pub partly: usize,
    pub partly_attained: usize,
    pub partly_dropped: usize,
    /// Packets delivered of the flows that keep their bounds.
    pub packets: usize,
}

/// Demand 3 flow by flow: in every set those before the first over its deadline keep their bounds and lose nothing, which
/// are all of an admitted set.
pub fn demand3_of(
    rules: Rules,
    draw: fn(&mut Rng) -> Set,
    slots: u32,
    seed: u64,
    draws: usize,
) -> Result<Fared, String> {
    let (mut rng, mut fared) = (Rng::new(seed), Fared::default());
    for _ in 0..draws {
        let set = draw(&mut rng);
        let fixed = (rules.fixed)(&set);
        let (kept, admitted) = (fixed.kept(), fixed.verdict().admitted);
        let ran = run_first((rules.fixed_machine)(&set), &set, &fixed.bound[..kept], slots)?;
        fared.packets += ran.packets;
        if admitted {
            fared.admitted += 1;
            fared.attained += usize::from(ran.held_up != 0);
            fared.last_attained += usize::from(kept > 0 && ran.held_up >> (kept - 1) & 1 == 1);
        } else if kept > 1 {
            fared.partly += 1;
            fared.partly_attained += usize::from(ran.held_up != 0);
            fared.partly_dropped += usize::from(ran.dropped > 0);
        }
    }
    Ok(fared)
}

/// Demand 3 over tight sets, each for 150 slots: several times every period.
pub fn demand3(rules: Rules, seed: u64, draws: usize) -> Result<Fared, String> {
    demand3_of(rules, ranked::tight, 150, seed, draws)
}

/// The same over chains.
pub fn chains(rules: Rules, seed: u64, draws: usize) -> Result<Fared, String> {
    demand3_of(rules, ranked::chain, 150, seed, draws)
}
