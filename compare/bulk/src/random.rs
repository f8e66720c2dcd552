//! A small generator of random numbers, so that every case follows from the seed alone.

/// Numbers that lie at the edges of bytes, masks and machine words.
const EDGES: [u32; 10] = [
    127,
    128,
    255,
    256,
    257,
    32_768,
    65_535,
    65_536,
    1 << 31,
    u32::MAX,
];

/// Numbers about the greatest n of either header, and at the ends of a mask of four bytes.
const WIDE_EDGES: [u32; 11] = [
    7,
    8,
    9,
    31,
    32,
    33,
    (1 << 31) - 1,
    1 << 31,
    (1 << 31) + 1,
    u32::MAX - 1,
    u32::MAX,
];

/// The generator SplitMix64.
pub struct Random {
    state: u64,
}

impl Random {
    /// The generator of one job of one group. It does not depend on the thread that runs the job.
    pub fn new(seed: u64, group: u64, job: usize) -> Random {
        let mut random = Random { state: seed };
        random.state = random.next() ^ group;
        random.state = random.next() ^ job as u64;
        random
    }

    fn next(&mut self) -> u64 {
        self.state = self.state.wrapping_add(0x9E37_79B9_7F4A_7C15);
        let mut mixed = self.state;
        mixed = (mixed ^ (mixed >> 30)).wrapping_mul(0xBF58_476D_1CE4_E5B9);
        mixed = (mixed ^ (mixed >> 27)).wrapping_mul(0x94D0_49BB_1331_11EB);
        mixed ^ (mixed >> 31)
    }

    /// A number from 0 to `bound` - 1, where the bound is 2^32 at most.
    fn scaled(&mut self, bound: u64) -> u32 {
        (((self.next() >> 32) * bound) >> 32) as u32
    }

    /// A number from 0 to `bound` - 1.
    pub fn below(&mut self, bound: u32) -> u32 {
        self.scaled(u64::from(bound))
    }

    /// A number from `low` to `high`.
    pub fn between(&mut self, low: u32, high: u32) -> u32 {
        low + self.scaled(u64::from(high - low) + 1)
    }

    /// A place or length from 0 to `bound` - 1.
    pub fn place(&mut self, bound: usize) -> usize {
        self.below(bound as u32) as usize
    }

    pub fn one_in(&mut self, chances: u32) -> bool {
        self.below(chances) == 0
    }

    pub fn pick<T: Copy>(&mut self, among: &[T]) -> T {
        among[self.place(among.len())]
    }

    pub fn byte(&mut self) -> u8 {
        self.below(256) as u8
    }

    /// A byte that is often one of the small ones that schedules are made of.
    pub fn small_byte(&mut self) -> u8 {
        match self.below(4) {
            0 => self.byte(),
            _ => self.below(11) as u8,
        }
    }

    /// A number of any size: mostly small, else at an edge or anything.
    pub fn number(&mut self) -> u32 {
        match self.below(8) {
            0 => self.pick(&EDGES),
            1 => self.next() as u32,
            2 => self.below(256),
            _ => self.below(11),
        }
    }

    /// A number as `number` gives it, or one about the limits of wide schedules.
    pub fn wide_number(&mut self) -> u32 {
        match self.below(4) {
            0 => self.pick(&WIDE_EDGES),
            1 => self.below(34),
            _ => self.number(),
        }
    }
}
