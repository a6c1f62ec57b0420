//! Numbers drawn from a seed by splitmix64.

/// A sequence of numbers that its seed fixes.
#[derive(Clone, Debug)]
pub struct Chance {
    state: u64,
}

impl Chance {
    /// The sequence of a seed.
    pub fn new(seed: u64) -> Chance {
        Chance { state: seed }
    }

    /// The sequence of one run among those of a seed.
    pub fn of_run(seed: u64, index: u32) -> Chance {
        let first = Chance::new(seed).draw();
        Chance::new(first ^ Chance::new(u64::from(index)).draw())
    }

    /// Any number of 64 bits.
    pub fn draw(&mut self) -> u64 {
        self.state = self.state.wrapping_add(0x9e37_79b9_7f4a_7c15);
        let mut mixed = self.state;
        mixed = (mixed ^ (mixed >> 30)).wrapping_mul(0xbf58_476d_1ce4_e5b9);
        mixed = (mixed ^ (mixed >> 27)).wrapping_mul(0x94d0_49bb_1331_11eb);
        mixed ^ (mixed >> 31)
    }

    /// A number below `bound`, which is above 0.
    pub fn below(&mut self, bound: u32) -> u32 {
        (((self.draw() >> 32) * u64::from(bound)) >> 32) as u32
    }

    /// A number from `low` to `high`.
    pub fn from_to(&mut self, low: u32, high: u32) -> u32 {
        low + self.below(high - low + 1)
    }

    /// A place below `bound`, which is above 0.
    pub fn place(&mut self, bound: usize) -> usize {
        self.below(bound as u32) as usize
    }

    /// True once in `count` draws.
    pub fn one_in(&mut self, count: u32) -> bool {
        self.below(count) == 0
    }

    /// True in `count` of a thousand draws.
    pub fn per_mille(&mut self, count: u32) -> bool {
        self.below(1000) < count
    }

    /// One of `values`.
    pub fn one_of<T: Copy>(&mut self, values: &[T]) -> T {
        values[self.place(values.len())]
    }
}
