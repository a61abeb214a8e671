//! A receiver in plain Rust, for the measuring programs.

const GENERATOR: u32 = 0x769;
pub const SYNC: u32 = 0x7CD2_15D8;
pub const CAPCODE: u32 = 8;

pub fn long_division(mut bits: u32) -> u32 {
    for at in (10..=30).rev() {
        if bits >> at & 1 == 1 {
            bits ^= GENERATOR << (at - 10);
        }
    }
    bits
}

/// The tables of the correction.
pub struct Code {
    low: [u32; 128],
    middle: [u32; 128],
    high: [u32; 128],
    patterns: [u32; 1024],
}

impl Code {
    pub fn new() -> Code {
        let table = |shift: u32| std::array::from_fn(|i| long_division((i as u32) << shift));
        let mut patterns = [0x7FFF_FFFF; 1024];
        patterns[0] = 0;
        for a in 0..31 {
            patterns[long_division(1 << a) as usize] = 1 << a;
            for b in 0..a {
                patterns[long_division(1 << a | 1 << b) as usize] = 1 << a | 1 << b;
            }
        }
        Code { low: table(10), middle: table(17), high: table(24), patterns }
    }

    pub fn remainder(&self, bits: u32) -> u32 {
        bits & 0x3FF
            ^ self.low[(bits >> 10 & 0x7F) as usize]
            ^ self.middle[(bits >> 17 & 0x7F) as usize]
            ^ self.high[(bits >> 24) as usize]
    }

    pub fn correct(&self, w: u32) -> Option<u32> {
        let heard = w >> 1;
        let sent = heard ^ self.patterns[self.remainder(heard) as usize];
        let v = sent << 1 | sent.count_ones() & 1;
        if (w ^ v).count_ones() <= 2 { Some(v) } else { None }
    }
}

pub fn is_sync(word: u32) -> bool {
    (word ^ SYNC).count_ones() <= 2
}

/// The receiver.
pub struct Plain {
    is_locked: bool,
    place: u32,
    register: u32,
    count: u32,
    is_open: bool,
    groups: Vec<u32>,
}

impl Plain {
    /// A receiver that was fed no bit.
    pub fn new() -> Plain {
        Plain { is_locked: false, place: 0, register: 0, count: 0, is_open: false, groups: Vec::with_capacity(351) }
    }

    /// Takes a bit, and says whether it completes a page.
    pub fn feed(&mut self, code: &Code, bit: bool) -> bool {
        self.register = self.register << 1 | u32::from(bit);
        self.count += 1;
        if !self.is_locked {
            if self.count >= 32 {
                self.count = 32;
                self.is_locked = is_sync(self.register);
                if self.is_locked {
                    (self.place, self.count) = (0, 0);
                }
            }
            return false;
        }
        if self.count < 32 {
            return false;
        }
        self.count = 0;
        if self.place < 16 {
            self.place += 1;
            return self.slot(code.correct(self.register), self.place - 1);
        }
        self.place = 0;
        self.is_locked = is_sync(self.register);
        self.is_open &= self.is_locked;
        false
    }

    fn slot(&mut self, word: Option<u32>, place: u32) -> bool {
        match word {
            None => self.is_open = false,
            Some(v) if v >> 31 == 1 => {
                if self.is_open {
                    self.is_open = self.groups.len() < 350;
                    self.groups.push(v >> 11 & 0xF_FFFF);
                }
            }
            Some(v) => {
                let is_complete = self.is_open;
                self.groups.clear();
                self.is_open = 8 * (v >> 13) + place / 2 == CAPCODE;
                return is_complete;
            }
        }
        false
    }
}
