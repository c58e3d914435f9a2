//! The checks of request 2, as `checks` has those of document 01: the sets of the request with their tables, and what must
//! hold of every table. The right rules pass them and the slips fail them.

use crate::checks::{claim, set_of, Found, Rules, P1_TEXT, PAPER};
use crate::definition;
use second::inputs::{superframes, Rng};
use second::{Set, Slot, State};

/// A set with its hyper-period and its rows: slot, flow, transmission number, offset.
pub struct Loaded {
    pub name: &'static str,
    pub text: &'static str,
    pub hyper: u32,
    pub rows: &'static [[u16; 4]],
}

pub const P1_ROWS: &[[u16; 4]] =
    &[[0, 0, 0, 0], [1, 0, 1, 0], [2, 1, 0, 0], [3, 1, 1, 0], [10, 0, 0, 0], [11, 0, 1, 0]];

pub const P1_LINES: &str = "0\t0\t0\t0\n1\t0\t1\t0\n2\t1\t0\t0\n3\t1\t1\t0\n10\t0\t0\t0\n11\t0\t1\t0\n";

/// P1 on three channels: its hyper-period is no multiple of them.
pub const F2_TEXT: &str = "set\t7\nflow\t10\t8\t0\t1\t1\t2\t3\nflow\t20\t20\t0\t1\t4\t2\t5\n";

pub const LOADED: [Loaded; 7] = [
    Loaded { name: "P1", text: P1_TEXT, hyper: 20, rows: P1_ROWS },
    Loaded { name: "P2, which the tightened test alone admits", text: PAPER[1].text, hyper: 20, rows: P1_ROWS },
    Loaded { name: "P7", text: PAPER[6].text, hyper: 10, rows: &[[0, 0, 0, 0], [0, 2, 0, 1], [1, 1, 0, 0]] },
    Loaded {
        name: "F1, 12 slots and not 24",
        text: "set\t7\nflow\t4\t4\t0\t1\t1\t2\nflow\t6\t6\t0\t2\t2\t3\n",
        hyper: 12,
        rows: &[[0, 0, 0, 0], [1, 1, 0, 0], [2, 1, 1, 0], [4, 0, 0, 0], [6, 1, 0, 0], [7, 1, 1, 0], [8, 0, 0, 0]],
    },
    Loaded { name: "F2, P1 on three channels", text: F2_TEXT, hyper: 20, rows: P1_ROWS },
    Loaded { name: "no flows", text: "set\t1\n", hyper: 1, rows: &[] },
    // The try starts again with each link, the number does not.
    Loaded {
        name: "P8, two tries",
        text: PAPER[7].text,
        hyper: 10,
        rows: &[[0, 0, 0, 0], [1, 0, 1, 0], [2, 0, 2, 0], [3, 0, 3, 0]],
    },
];

/// The request's sets: hyper-period and rows; and F2's channels when row 0 comes round.
pub fn paper(rules: Rules) -> Found {
    for loaded in &LOADED {
        let set = set_of(loaded.text);
        let hyper = (rules.hyper)(&set);
        claim(hyper == Some(loaded.hyper), || format!("{}: {hyper:?}", loaded.name))?;
        let table = (rules.table)(&set, loaded.hyper);
        claim(table == loaded.rows.concat(), || format!("{}: {table:?}", loaded.name))?;
    }
    let set = set_of(F2_TEXT);
    for (t, channel) in [(0, 11), (20, 13), (40, 12), (60, 11)] {
        let sends = (rules.by_table)(&set, &P1_ROWS.concat(), 20, t);
        let found: Vec<u8> = sends.iter().map(|sent| sent.channel).collect();
        claim(found == [channel], || format!("F2: {found:?} in slot {t}"))?;
    }
    Ok(())
}

/// Hyper-periods short, near the limit and astronomical against the definition.
pub fn hypers(rules: Rules, seed: u64, draws: usize) -> Found {
    let mut rng = Rng::new(seed);
    for _ in 0..draws {
        let set = superframes::any(&mut rng);
        let (found, wanted) = ((rules.hyper)(&set), definition::hyper(&set));
        claim(found.map(i64::from) == wanted, || format!("{found:?}, not {wanted:?}, of {:?}", set.used()))?;
    }
    Ok(())
}

/// Tables of short sets, admitted or not, against the definition.
pub fn tables(rules: Rules, seed: u64, draws: usize) -> Found {
    let mut rng = Rng::new(seed);
    for _ in 0..draws {
        let set = superframes::short(&mut rng);
        let Some(hyper) = definition::hyper(&set) else { continue };
        let wanted = definition::rows(&set, hyper);
        let found: Vec<i64> = (rules.table)(&set, hyper as u32).into_iter().map(i64::from).collect();
        claim(found == wanted.concat(), || format!("{found:?}, not {wanted:?}, of {:?}", set.used()))?;
    }
    Ok(())
}

/// How the repeated table fared over many sets.
#[derive(Default, Debug)]
pub struct Fared {
    /// Sets that a test admits, and those that none does.
    pub admitted: usize,
    pub others: usize,
    /// Sets that drop a packet.
    pub dropping: usize,
    /// Sets whose m does not divide the hyper-period, and those with tries above 1.
    pub moving: usize,
    pub tries: usize,
    pub rows: usize,
}

/// Slot t of the machine sends what the table has at t mod hyper-period, through three hyper-periods, of admitted sets and
/// others. Of an admitted one the table has Σ (H / T)·C rows.
pub fn repeats(rules: Rules, seed: u64, draws: usize) -> Result<Fared, String> {
    let (mut rng, mut fared) = (Rng::new(seed), Fared::default());
    for _ in 0..draws {
        let set = superframes::short(&mut rng);
        let because = |why: &str| format!("{why} of map {}, {:?}", set.map, set.used());
        let hyper = (rules.hyper)(&set).ok_or_else(|| because("no hyper-period"))?;
        let table = (rules.table)(&set, hyper);
        let drops = three_times(rules, &set, &table, hyper).map_err(|why| because(&why))?;
        let verdict = (rules.delays)(&set).verdict();
        if verdict.basic || verdict.tightened {
            let rows: u32 = set.used().iter().map(|flow| hyper / u32::from(flow.period) * flow.c()).sum();
            claim(table.len() == 4 * rows as usize, || because("another length"))?;
            claim(drops == 0, || because("a drop"))?;
            fared.admitted += 1;
            fared.rows += rows as usize;
        } else {
            fared.others += 1;
        }
        fared.dropping += usize::from(drops > 0);
        fared.moving += usize::from(hyper % set.m() != 0 && !table.is_empty());
        fared.tries += usize::from(set.used().iter().any(|flow| flow.tries > 1));
    }
    Ok(fared)
}

/// Three hyper-periods of one set from the fresh state beside its table. Answers how many packets were dropped.
fn three_times(rules: Rules, set: &Set, table: &[u16], hyper: u32) -> Result<usize, String> {
    let (mut machine, mut state, mut slot, mut drops) = ((rules.machine)(set), State::FRESH, Slot::new(), 0);
    for t in 0..3 * hyper {
        machine.step(&mut state, &mut slot);
        let by_table = (rules.by_table)(set, table, hyper, t);
        claim(by_table == slot.sends, || format!("{by_table:?}, not {:?}, in slot {t}", slot.sends))?;
        drops += slot.dropped.len();
    }
    Ok(drops)
}
