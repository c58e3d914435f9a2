//! Inputs for comparing planners, drawn from a seed: [`sets`] small and large and on either side of a line,
//! [`texts`] damaged from good ones, [`records`] with garbage where nothing counts, and states good and bad;
//! [`superframes`], sets to be loaded, and [`tables`] with their lines good and damaged; [`ranked`], sets for fixed
//! priority; and sets with a name, [`named`], whose answers were found by hand.

pub mod named;
pub mod ranked;
pub mod records;
pub mod sets;
pub mod superframes;
pub mod tables;
pub mod texts;

pub use sets::ring64;

/// A small generator of pseudo-random numbers (splitmix64): the same seed gives the same inputs on every machine.
#[derive(Clone, Debug)]
pub struct Rng(u64);

impl Rng {
    /// A generator with this seed.
    pub fn new(seed: u64) -> Rng {
        Rng(seed)
    }

    /// The next 64 bits.
    pub fn bits(&mut self) -> u64 {
        self.0 = self.0.wrapping_add(0x9e37_79b9_7f4a_7c15);
        let mut z = self.0;
        z = (z ^ z >> 30).wrapping_mul(0xbf58_476d_1ce4_e5b9);
        z = (z ^ z >> 27).wrapping_mul(0x94d0_49bb_1331_11eb);
        z ^ z >> 31
    }

    /// A number below n; 0 for n = 0.
    pub fn below(&mut self, n: usize) -> usize {
        ((u128::from(self.bits()) * n as u128) >> 64) as usize
    }

    /// A number from `low` to `high`, both among them.
    pub fn within(&mut self, low: usize, high: usize) -> usize {
        low + self.below(high.saturating_sub(low) + 1)
    }

    /// Any 16 bits.
    pub fn word(&mut self) -> u16 {
        self.bits() as u16
    }

    /// True once in n times.
    pub fn once_in(&mut self, n: usize) -> bool {
        self.below(n) == 0
    }

    /// One of these.
    pub fn pick<T: Copy>(&mut self, choices: &[T]) -> T {
        choices[self.below(choices.len())]
    }
}
