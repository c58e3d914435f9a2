//! Prints, for a seed and a number of draws, how many of the sets drawn have a route that comes back to a node, and how
//! often each refusal was made of the inputs drawn: `inputs [seed] [draws]`. Refusal 0 is "accepted".

use second::host::{bound_of_text, step_of_text};
use second::inputs::{records, sets, superframes, tables, texts, Rng};
use second::{check, read, read_table, step, superframe, write, Refusal, Set, REFUSALS};

/// How often each refusal number was made.
type Tally = [u64; REFUSALS];
/// Draws an input of one kind and answers with its refusal.
type Kind = fn(&mut Rng) -> Refusal;

fn main() {
    let mut numbers = std::env::args().skip(1).map(|word| word.parse::<u64>().expect("a whole number"));
    let (seed, draws) = (numbers.next().unwrap_or(1), numbers.next().unwrap_or(2_000));
    println!("seed\t{seed}\tdraws\t{draws}");
    let mut rng = Rng::new(seed);
    let returning = (0..draws).filter(|_| sets::returns(&sets::any(&mut rng))).count();
    println!("sets\t{draws}\twith a returning node\t{returning}");
    let kinds: [(&str, Kind); 8] = [
        ("text", |rng| read(&texts::any(rng)).refusal),
        ("record", |rng| check(&records::record(rng))),
        ("state", state),
        ("bound", bound),
        ("write", written),
        ("c-step", c_step),
        ("superframe", loaded),
        ("table", lines),
    ];
    for (name, kind) in kinds {
        let (mut rng, mut tally) = (Rng::new(seed), Tally::default());
        (0..draws).for_each(|_| tally[usize::from(kind(&mut rng).number)] += 1);
        print_tally(name, &tally);
    }
    let mut rng = Rng::new(seed);
    for faults in texts::pairs() {
        let damaged = texts::damaged(&mut rng, faults);
        let refusal = read(&damaged.text).refusal;
        let Refusal { number, line, field } = refusal;
        println!("pair\t{}\t{}\trefused\t{number}\t{line}\t{field}", faults[0], faults[1]);
    }
}

/// A step of a good set from any state.
fn state(rng: &mut Rng) -> Refusal {
    let set = sets::small(rng);
    step(&set, &records::state(rng, &set)).refusal
}

/// The bounds of a flow that may not be there.
fn bound(rng: &mut Rng) -> Refusal {
    let text = texts::any(rng);
    bound_of_text(&text, rng.below(70) as u32).refusal
}

/// A record written into a buffer that may be short.
fn written(rng: &mut Rng) -> Refusal {
    let set = records::record(rng);
    let mut buffer = vec![0; rng.pick(&[0, 9, 100, 1_000, 8_138])];
    write(&set, &mut buffer).refusal
}

/// A C step with any text, state and buffer.
fn c_step(rng: &mut Rng) -> Refusal {
    let text = texts::any(rng);
    let set: Set = read(&text).set;
    let mut state = records::state_bytes(rng, &set);
    let mut buffer = vec![0; rng.pick(&[0, 18, 40, 600])];
    step_of_text(&text, &mut state, &mut buffer).refusal
}

/// The superframe of a set into a table that may be short.
fn loaded(rng: &mut Rng) -> Refusal {
    let set = superframes::any(rng);
    let mut table = vec![0; rng.pick(&[0, 40, 400, 70_000])];
    superframe(&set, &mut table).refusal
}

/// Lines read into a table that may be short.
fn lines(rng: &mut Rng) -> Refusal {
    let text = tables::lines(rng);
    let mut table = vec![0; rng.pick(&[0, 20, 48])];
    read_table(&text, &mut table).0
}

fn print_tally(name: &str, tally: &Tally) {
    for (number, times) in tally.iter().enumerate().filter(|(_, times)| **times > 0) {
        println!("{name}\trefused\t{number}\ttimes\t{times}");
    }
}
