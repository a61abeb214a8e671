//! `load` in plain Rust: the same session, fed to a terminal block by block, the same transmission, word by word, through the same two
//! noises to two groups of receivers, and the same six lines. `run.sh` in this folder builds and starts it.

#[path = "../receiver/plain.rs"]
#[allow(dead_code)]
mod receiver;
#[path = "../terminal/plain.rs"]
#[allow(dead_code)]
mod terminal;

use receiver::{Code, SYNC, is_sync};
use std::collections::BTreeMap;
use terminal::scanner::{CR, EOT, ESC, ETX, STX, written};
use terminal::{NONE, Pool, Subscriber, Terminal};

const IDLE: u32 = 0x7A89_C197;
const CELLS: u32 = 65_536;

/// The generator of `rand_pcg`, `Lcg64Xsh32`, on stream 1.
struct Generator {
    state: u64,
}

impl Generator {
    fn new(seed: u64) -> Generator {
        let mut generator = Generator { state: seed.wrapping_add(3) };
        generator.next();
        generator
    }

    fn next(&mut self) -> u32 {
        let state = self.state;
        self.state = state.wrapping_mul(6_364_136_223_846_793_005).wrapping_add(3);
        ((((state >> 18) ^ state) >> 27) as u32).rotate_right((state >> 59) as u32)
    }

    fn below(&mut self, n: u32) -> u32 {
        self.next() % n
    }
}

// ---- the session

fn capcode_at(i: u32) -> u32 {
    1000 + 37 * i
}

fn function_at(i: u32) -> u32 {
    i % 4
}

fn settings() -> BTreeMap<Vec<u8>, Subscriber> {
    (0..64).map(|i| ((5_550_000 + i).to_string().into_bytes(), Subscriber { capcode: capcode_at(i), function: function_at(i) })).collect()
}

/// Draws a page, and writes its block.
fn draw_block(draws: &mut Generator, block: &mut Vec<u8>) {
    let i = draws.below(64);
    block.clear();
    block.push(STX);
    block.extend_from_slice((5_550_000 + i).to_string().as_bytes());
    block.push(CR);
    let (longest, first, kinds) = match function_at(i) {
        0 => (20, b'0', 10),
        3 => (60, b'A', 26),
        _ => (0, 0, 0),
    };
    if longest > 0 {
        for _ in 0..1 + draws.below(longest) {
            block.push(first + draws.below(kinds) as u8);
        }
    }
    block.extend_from_slice(&[CR, ETX]);
    let total = block.iter().map(|c| u32::from(*c)).sum::<u32>() % 4096;
    block.extend_from_slice(&written(total));
    block.push(CR);
}

/// Feeds the session of so many pages.
fn feed_session(count: u32, draws: &mut Generator, settings: &BTreeMap<Vec<u8>, Subscriber>, pool: &mut Pool) {
    let mut terminal = Terminal::new();
    let mut block = Vec::with_capacity(256);
    let mut feed = |bytes: &[u8], pool: &mut Pool| {
        for byte in bytes {
            terminal.feed(*byte, settings, pool);
        }
    };
    feed(&[CR, ESC, b'P', b'G', b'1', CR], pool);
    for _ in 0..count {
        draw_block(draws, &mut block);
        feed(&block, pool);
    }
    feed(&[EOT, CR], pool);
}

// ---- the transmission

/// What stood in the slot before: an idle word, the end of a run, or a word of the run of a frame's first page: how many groups stood before
/// the next one.
enum Before {
    Idle,
    RunEnd,
    InRun(usize, usize),
}

/// The words of the transmission of a pool's pages.
struct Words<'a> {
    pool: &'a mut Pool,
    code: &'a Code,
    /// How many words were given, and the place in the batch: the sync word, or a slot behind it.
    given: u32,
    place: u32,
    before: Before,
    text: [u8; 1000],
}

impl Words<'_> {
    fn next(&mut self) -> Option<u32> {
        if self.given < 18 {
            if self.given == 0 && self.pool.first == NONE {
                return None;
            }
            self.given += 1;
            return Some(0xAAAA_AAAA);
        }
        if self.place == 0 {
            if self.pool.first == NONE && matches!(self.before, Before::Idle) {
                return None;
            }
            self.place = 1;
            return Some(SYNC);
        }
        let slot = self.place - 1;
        self.place = (self.place + 1) % 17;
        Some(self.slot(slot as usize / 2))
    }

    fn slot(&mut self, frame: usize) -> u32 {
        let (frame, k) = match self.before {
            Before::InRun(frame, k) => (frame, k + 1),
            Before::Idle | Before::RunEnd => (frame, 0),
        };
        let page = self.pool.frames[frame].0;
        if page == NONE {
            self.before = Before::Idle;
            return IDLE;
        }
        let head = self.pool.heads[page as usize];
        let Some(to) = head.address else {
            unreachable!();
        };
        let length = head.length as usize;
        let bits = if k == 0 {
            self.pool.copy_text(page, &mut self.text);
            to.capcode / 8 << 2 | to.function
        } else {
            1 << 20 | group(to.function, &self.text[..length], k - 1)
        };
        self.before = if k < groups(to.function, length) {
            Before::InRun(frame, k)
        } else {
            self.pool.take(frame);
            Before::RunEnd
        };
        self.word(bits)
    }

    /// The codeword of 21 bits.
    fn word(&self, bits: u32) -> u32 {
        let shifted = bits << 10;
        let sent = shifted | self.code.remainder(shifted);
        sent << 1 | sent.count_ones() & 1
    }
}

fn width(function: u32) -> usize {
    match function {
        0 => 4,
        3 => 7,
        _ => 0,
    }
}

fn groups(function: u32, length: usize) -> usize {
    (width(function) * length).div_ceil(20)
}

/// A group of a text: each character's least significant bit first, and fill behind the text.
fn group(function: u32, text: &[u8], k: usize) -> u32 {
    let width = width(function);
    (20 * k..20 * k + 20).fold(0, |group, place| {
        let code = match text.get(place / width) {
            Some(c) if width == 7 => *c,
            Some(c) => b"0123456789*U -][".iter().position(|x| x == c).unwrap_or(0) as u8,
            None if width == 7 => 0,
            None => 12,
        };
        group << 1 | u32::from(reversed(code, width) >> (width - 1 - place % width) & 1)
    })
}

/// A code with its bits the other way round.
fn reversed(code: u8, width: usize) -> u8 {
    code.reverse_bits() >> (8 - width)
}

// ---- the receivers

/// Receivers of all capcodes, which take a word at a time.
struct Group {
    capcodes: BTreeMap<u32, u64>,
    marks: [bool; 4096],
    is_locked: bool,
    place: u32,
    register: u32,
    count: u32,
    page: Option<(u32, u32)>,
    groups: Vec<u32>,
}

impl Group {
    fn new() -> Group {
        let mut marks = [false; 4096];
        for i in 0..64 {
            marks[capcode_at(i) as usize % 4096] = true;
        }
        Group {
            capcodes: (0..64).map(|i| (capcode_at(i), 1 << i)).collect(),
            marks,
            is_locked: false,
            place: 0,
            register: 0,
            count: 0,
            page: None,
            groups: Vec::with_capacity(141),
        }
    }

    /// Takes 32 bits. `complete` is told of each page.
    fn feed(&mut self, code: &Code, word: u32, mut complete: impl FnMut((u32, u32), &[u32])) {
        let mut left = 32;
        while left > 0 {
            if !self.is_locked {
                left = self.hunt(word, left);
                continue;
            }
            let n = (32 - self.count).min(left);
            left -= n;
            let bits = u64::from(word) >> left & ((1 << n) - 1);
            self.register = (u64::from(self.register) << n | bits) as u32;
            self.count += n;
            if self.count < 32 {
                continue;
            }
            self.count = 0;
            if self.place < 16 {
                self.place += 1;
                if let Some(page) = self.slot(code.correct(self.register), self.place - 1) {
                    complete(page, &self.groups);
                    self.groups.clear();
                }
                continue;
            }
            self.place = 0;
            self.is_locked = is_sync(self.register);
            if !self.is_locked {
                self.page = None;
            }
        }
    }

    /// Hunts in the last so many bits of a word, up to a sync word. How many are left.
    fn hunt(&mut self, word: u32, mut left: u32) -> u32 {
        while left > 0 {
            left -= 1;
            self.register = self.register << 1 | word >> left & 1;
            self.count = (self.count + 1).min(32);
            if self.count == 32 && is_sync(self.register) {
                (self.is_locked, self.place, self.count) = (true, 0, 0);
                return left;
            }
        }
        0
    }

    fn find(&self, capcode: u32) -> bool {
        self.marks[capcode as usize % 4096] && self.capcodes.contains_key(&capcode)
    }

    /// The page that the word of a slot completes.
    fn slot(&mut self, word: Option<u32>, place: u32) -> Option<(u32, u32)> {
        match word {
            None => self.page = None,
            Some(v) if v >> 31 == 1 => {
                if self.page.is_some() {
                    if self.groups.len() == 140 {
                        self.page = None;
                    } else {
                        self.groups.push(v >> 11 & 0xF_FFFF);
                    }
                }
            }
            Some(v) => {
                let complete = self.page;
                if complete.is_none() {
                    self.groups.clear();
                }
                let capcode = 8 * (v >> 13) + place / 2;
                self.page = if self.find(capcode) { Some((capcode, v >> 11 & 3)) } else { None };
                return complete;
            }
        }
        None
    }
}

/// Writes the line of a page.
fn write_line((capcode, function): (u32, u32), groups: &[u32], line: &mut Vec<u8>) {
    line.clear();
    for place in [1_000_000, 100_000, 10_000, 1_000, 100, 10, 1] {
        line.push(b'0' + (capcode / place % 10) as u8);
    }
    line.extend_from_slice(&[b' ', b"N12A"[function as usize], b' ']);
    let width = width(function);
    let mut text = [0; 700];
    let mut count = if width == 0 { 0 } else { 20 * groups.len() / width };
    for (k, character) in text[..count].iter_mut().enumerate() {
        let code = (0..width).rev().fold(0, |code, i| {
            let place = width * k + i;
            code << 1 | (groups[place / 20] >> (19 - place % 20) & 1) as u8
        });
        *character = if width == 4 { b"0123456789*U -]["[usize::from(code)] } else { code };
    }
    while count > 0 && text[count - 1] == if width == 4 { b' ' } else { 0 } {
        count -= 1;
    }
    for c in &text[..count] {
        match c {
            b'\\' => line.extend_from_slice(b"\\\\"),
            b'\n' => line.extend_from_slice(b"\\n"),
            b'\r' => line.extend_from_slice(b"\\r"),
            0x20..=0x7E => line.push(*c),
            _ => line.extend_from_slice(format!("\\x{c:02X}").as_bytes()),
        }
    }
    line.push(b'\n');
}

/// The bits that the two noises flip in the word of this number behind the preamble.
fn draw_flips(number: u32, draws: &mut Generator) -> (u32, u32) {
    let a = draws.below(32);
    let b = (a + 1 + draws.below(31)) % 32;
    let is_third = draws.below(64) == 0 && number % 17 != 0;
    let first = 1 << 31 >> a | 1 << 31 >> b;
    let third = (0..3).find(|d| *d != a && *d != b).filter(|_| is_third).map_or(0, |d| 1 << 31 >> d);
    (first, first | third)
}

fn main() {
    let words: Vec<String> = std::env::args().collect();
    let (seed, count) = (words[1].parse().expect("a seed"), words[2].parse().expect("a count"));
    let mut draws = Generator::new(seed);
    let settings = settings();
    let mut pool = Pool::new(CELLS);
    let (mut first, mut second) = (Group::new(), Group::new());
    feed_session(count, &mut draws, &settings, &mut pool);
    let mut page = pool.first;
    let mut pages = 0;
    while page != NONE {
        pages += 1;
        page = pool.heads[page as usize].after;
    }
    let code = Code::new();
    let mut words = Words { pool: &mut pool, code: &code, given: 0, place: 0, before: Before::Idle, text: [0; 1000] };
    let (mut number, mut lines, mut bytes, mut sum, mut kept) = (0u32, 0u64, 0u64, 0u64, 0u64);
    let mut line = Vec::with_capacity(2811);
    while let Some(word) = words.next() {
        let (flips, more) = if number < 18 { (0, 0) } else { draw_flips(number - 18, &mut draws) };
        number += 1;
        first.feed(&code, word ^ flips, |page, groups| {
            write_line(page, groups, &mut line);
            lines += 1;
            bytes += line.len() as u64;
            sum += line.iter().map(|c| u64::from(*c)).sum::<u64>();
        });
        second.feed(&code, word ^ more, |_, _| kept += 1);
    }
    let batches = number.saturating_sub(18) / 17;
    print!("pages {pages}\nbatches {batches}\nlines {lines}\nbytes {bytes}\nsum {sum}\nkept {kept}\n");
}
