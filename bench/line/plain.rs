//! `line` and `play-line` for one capcode in plain Rust: the same samples, and the same lines of the pages that are heard.
//! `run.sh` in this folder builds and starts it.

#[path = "../play/plain.rs"]
#[allow(dead_code)]
mod play;

use play::{Code, Piece, Pieces, print};
use std::fs::File;
use std::io::{Read, Write};
use std::mem::ManuallyDrop;
use std::os::fd::FromRawFd;

const MULTIPLIER: u64 = 6_364_136_223_846_793_005;

/// The generator of `rand_pcg`, `Lcg64Xsh32`, on stream 1.
struct Generator {
    state: u64,
}

impl Generator {
    const INCREMENT: u64 = 3;

    fn new(seed: u64) -> Generator {
        let mut generator = Generator { state: seed.wrapping_add(Generator::INCREMENT) };
        generator.next();
        generator
    }

    fn next(&mut self) -> u32 {
        let state = self.state;
        self.state = state.wrapping_mul(MULTIPLIER).wrapping_add(Generator::INCREMENT);
        ((((state >> 18) ^ state) >> 27) as u32).rotate_right((state >> 59) as u32)
    }
}

/// Samples, eight in each byte, that are written some kilobytes at a time.
struct Samples {
    file: File,
    bits: u64,
    count: u32,
    bytes: Vec<u8>,
}

impl Samples {
    /// Adds some equal ones, at most ten.
    fn repeat(&mut self, value: bool, n: u32) -> std::io::Result<()> {
        self.bits = self.bits << n | if value { (1 << n) - 1 } else { 0 };
        self.count += n;
        while self.count >= 8 {
            self.count -= 8;
            self.bytes.push((self.bits >> self.count) as u8);
            if self.bytes.len() == 4096 {
                self.file.write_all(&self.bytes)?;
                self.bytes.clear();
            }
        }
        Ok(())
    }
}

/// The samples of the bits of a file, to another.
fn line(air: &str, line: &str, seed: u64) -> std::io::Result<()> {
    let mut samples = Samples { file: File::create(line)?, bits: 0, count: 0, bytes: Vec::with_capacity(4096) };
    let air = std::fs::read(air)?;
    let mut generator = Generator::new(seed);
    let mut stray = 1;
    for (at, byte) in air.iter().enumerate() {
        for place in (0..8).rev() {
            let value = byte >> place & 1;
            let next = if place > 0 { Some(byte >> (place - 1) & 1) } else { air.get(at + 1).map(|byte| byte >> 7) };
            let moved = if next.is_some_and(|next| next != value) { generator.next() % 3 } else { 1 };
            samples.repeat(value == 1, 8 + moved - stray)?;
            stray = moved;
        }
    }
    samples.file.write_all(&samples.bytes)
}

/// The bits of samples, of which some are counted since the last edge.
struct Counter {
    last: bool,
    count: u32,
}

impl Counter {
    /// The bits of the next 32 samples, at most five.
    fn bits(&mut self, samples: u32) -> Piece {
        let (mut left, mut rest) = (32, samples);
        let mut piece = Piece { bits: 0, count: 0 };
        while left > 0 {
            let value = rest >> 31 == 1;
            let run = if value { rest.leading_ones() } else { rest.leading_zeros() }.min(left);
            if value != self.last {
                (self.last, self.count) = (value, 0);
            }
            let given = (self.count + 4) / 8;
            let n = (self.count + run + 4) / 8 - given;
            piece.bits = piece.bits << n | if value { (1 << n) - 1 } else { 0 };
            piece.count += n;
            self.count = (self.count + run) % 8;
            rest = rest.checked_shl(run).unwrap_or(0);
            left -= run;
        }
        piece
    }
}

/// Prints the pages that are heard in the samples of a file.
fn play_line(line: &str) -> std::io::Result<()> {
    let mut file = File::open(line)?;
    let mut out = ManuallyDrop::new(unsafe { File::from_raw_fd(1) });
    let code = Code::new();
    let mut pieces = Pieces::new();
    let mut counter = Counter { last: false, count: 0 };
    let mut buffer = [0; 4096];
    loop {
        let n = file.read(&mut buffer)?;
        if n == 0 {
            return Ok(());
        }
        for word in buffer[..n].chunks_exact(4) {
            let mut piece = counter.bits(word.iter().fold(0, |samples, byte| samples << 8 | u32::from(*byte)));
            while piece.count > 0 {
                if pieces.feed(&code, &mut piece) && let Some(function) = pieces.ready {
                    print(&mut out, &pieces, function)?;
                }
            }
        }
    }
}

fn main() -> std::io::Result<()> {
    let words: Vec<String> = std::env::args().skip(1).collect();
    match words.iter().map(String::as_str).collect::<Vec<_>>()[..] {
        ["line", air, to, seed] => line(air, to, seed.parse().expect("a seed")),
        ["play-line", from] => play_line(from),
        _ => panic!("line AIR LINE SEED, or play-line LINE"),
    }
}
