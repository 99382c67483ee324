//! Numbers that look random and are the same for the same seed.

/// A small generator (splitmix64).
pub struct Dice(u64);

impl Dice {
    /// Dice of their own for each number under a seed.
    pub fn new(seed: u64, number: u64) -> Self {
        let mut dice = Dice(seed);
        let start = dice.next();
        Dice(start ^ number.wrapping_mul(0xD134_2543_DE82_EF95))
    }

    fn next(&mut self) -> u64 {
        self.0 = self.0.wrapping_add(0x9E37_79B9_7F4A_7C15);
        let mut mixed = self.0;
        mixed = (mixed ^ mixed >> 30).wrapping_mul(0xBF58_476D_1CE4_E5B9);
        mixed = (mixed ^ mixed >> 27).wrapping_mul(0x94D0_49BB_1331_11EB);
        mixed ^ mixed >> 31
    }

    /// A number below `sides`.
    pub fn roll(&mut self, sides: u64) -> u64 {
        self.next() % sides
    }

    /// A number from `low` to `high`, both included.
    pub fn between(&mut self, low: u64, high: u64) -> u64 {
        low + self.roll(high - low + 1)
    }

    /// True in so many of a hundred cases.
    pub fn chance(&mut self, percent: u64) -> bool {
        self.roll(100) < percent
    }

    pub fn byte(&mut self) -> u8 {
        self.next() as u8
    }

    /// Any of the 64-bit numbers.
    pub fn word(&mut self) -> u64 {
        self.next()
    }

    pub fn bytes(&mut self, length: usize) -> Vec<u8> {
        (0..length).map(|_| self.byte()).collect()
    }

    /// One of the choices, of which there must be some.
    pub fn pick<T: Copy>(&mut self, choices: &[T]) -> T {
        choices[self.roll(choices.len() as u64) as usize]
    }

    /// An index below `length`.
    pub fn index(&mut self, length: usize) -> usize {
        self.roll(length as u64) as usize
    }
}
