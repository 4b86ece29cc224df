//! A small deterministic generator (splitmix64): the same seed gives the same cases on every run.

/// The generator's state, and how many generators for minutes it has given.
pub struct Random {
    state: u64,
    clocks: u64,
}

impl Random {
    /// A generator that starts from the given seed.
    pub fn new(seed: u64) -> Random {
        Random {
            state: seed,
            clocks: 0,
        }
    }

    /// The next 64 bits.
    pub fn draw(&mut self) -> u64 {
        self.state = self.state.wrapping_add(0x9E37_79B9_7F4A_7C15);
        let z = self.state;
        let z = (z ^ (z >> 30)).wrapping_mul(0xBF58_476D_1CE4_E5B9);
        let z = (z ^ (z >> 27)).wrapping_mul(0x94D0_49BB_1331_11EB);
        z ^ (z >> 31)
    }

    /// A number from low to high, both included.
    pub fn within(&mut self, low: u32, high: u32) -> u32 {
        low + (self.draw() % (u64::from(high - low) + 1)) as u32
    }

    /// An index into a list of the given length.
    pub fn index(&mut self, length: usize) -> usize {
        (self.draw() % length as u64) as usize
    }

    /// A byte.
    pub fn byte(&mut self) -> u8 {
        (self.draw() >> 56) as u8
    }

    /// A word of 32 bits.
    pub fn word(&mut self) -> u32 {
        (self.draw() >> 32) as u32
    }

    /// A list of any words.
    pub fn words(&mut self, count: usize) -> Vec<u32> {
        (0..count).map(|_| self.word()).collect()
    }

    /// The numbers from 1 to a count in random order.
    pub fn order(&mut self, count: u32) -> Vec<u32> {
        let mut numbers: Vec<u32> = (1..=count).collect();
        for last in (1..numbers.len()).rev() {
            numbers.swap(last, self.index(last + 1));
        }
        numbers
    }

    /// A generator for windows, minutes and what comes with them, another one each time: nothing else
    /// that is drawn changes with it.
    pub fn clock(&mut self) -> Random {
        self.clocks += 1;
        Random::new(self.state ^ self.clocks << 32)
    }

    /// An opening minute and a later closing minute: at times at an end of 32 bits, from end to end,
    /// or a minute long.
    pub fn window(&mut self) -> [u32; 2] {
        const LAST: u32 = u32::MAX - 1;
        let clock = &mut self.clock();
        let opening = clock.within(0, LAST);
        match clock.within(0, 11) {
            0 => [0, 1],
            1 => [LAST, u32::MAX],
            2 => [0, u32::MAX],
            3 => [opening, opening + 1],
            4 => [opening, u32::MAX],
            5 => [0, opening + 1],
            6..=8 => [opening / 8192, opening / 8192 + clock.within(1, 9)],
            _ => [opening, clock.within(opening + 1, u32::MAX)],
        }
    }

    /// A minute of a window: its first, its last, or any.
    pub fn inside(&mut self, [opening, closing]: [u32; 2]) -> u32 {
        let clock = &mut self.clock();
        match clock.within(0, 3) {
            0 => opening,
            1 => closing - 1,
            _ => clock.within(opening, closing - 1),
        }
    }

    /// A minute before a window or after it; where there is none before, after it.
    pub fn outside(&mut self, [opening, closing]: [u32; 2]) -> u32 {
        let clock = &mut self.clock();
        match clock.within(0, 6) {
            0 | 1 if opening > 0 => opening - 1,
            2 if opening > 0 => clock.within(0, opening - 1),
            3 => clock.within(closing, u32::MAX),
            4 => u32::MAX,
            _ => closing,
        }
    }

    /// A minute inside a window or outside it.
    pub fn any_minute(&mut self, window: [u32; 2]) -> u32 {
        match self.clock().within(0, 1) {
            0 => self.inside(window),
            _ => self.outside(window),
        }
    }

    /// A list of elements below q.
    pub fn elements(&mut self, count: usize, q: u32) -> Vec<u32> {
        (0..count).map(|_| self.within(0, q - 1)).collect()
    }
}
