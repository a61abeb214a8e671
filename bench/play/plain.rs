//! `play` for one capcode in plain Rust, 32 bits at a time, as the proved program hears them: it prints each page's line.
//! `run.sh` in this folder builds and starts it.

#[path = "../receiver/plain.rs"]
mod plain;

pub use plain::Code;
use plain::{CAPCODE, SYNC, is_sync};
use std::fs::File;
use std::io::{Read, Write};
use std::mem::ManuallyDrop;
use std::os::fd::FromRawFd;

const HEX_DIGITS: &[u8; 16] = b"0123456789ABCDEF";

/// A receiver that takes some bits at a time.
pub struct Pieces {
    is_locked: bool,
    place: u32,
    register: u32,
    count: u32,
    page: Option<u32>,
    groups: Vec<u32>,
    pub ready: Option<u32>,
}

/// Bits that are left of a piece: the lowest so many.
pub struct Piece {
    pub bits: u32,
    pub count: u32,
}

impl Pieces {
    pub fn new() -> Pieces {
        Pieces { is_locked: false, place: 0, register: 0, count: 0, page: None, groups: Vec::with_capacity(351), ready: None }
    }

    /// Takes the first bits of a piece: up to one that completes a page, or all. Says whether one is complete.
    pub fn feed(&mut self, code: &Code, piece: &mut Piece) -> bool {
        while piece.count > 0 {
            if self.meet(code, piece) {
                return true;
            }
        }
        false
    }

    fn meet(&mut self, code: &Code, piece: &mut Piece) -> bool {
        if self.ready.take().is_some() {
            self.groups.clear();
        }
        if !self.is_locked {
            if !self.hunt(piece) {
                return false;
            }
            (self.is_locked, self.place, self.count) = (true, 0, 0);
            return false;
        }
        let n = (32 - self.count).min(piece.count);
        piece.count -= n;
        let first = u64::from(piece.bits) >> piece.count & ((1u64 << n) - 1);
        self.register = (u64::from(self.register) << n | first) as u32;
        self.count += n;
        if self.count < 32 {
            return false;
        }
        self.count = 0;
        if self.place < 16 {
            self.place += 1;
            return self.slot(code.correct(self.register), self.place - 1);
        }
        self.place = 0;
        self.is_locked = is_sync(self.register);
        if !self.is_locked {
            self.page = None;
        }
        false
    }

    fn hunt(&mut self, piece: &mut Piece) -> bool {
        while piece.count > 0 && self.count < 32 {
            piece.count -= 1;
            self.register = self.register << 1 | piece.bits >> piece.count & 1;
            self.count += 1;
            if self.count == 32 && is_sync(self.register) {
                return true;
            }
        }
        let window = u64::from(self.register) << piece.count | u64::from(piece.bits) & ((1u64 << piece.count) - 1);
        if !has_no_sync(window) {
            for k in 0..piece.count {
                if is_sync((window >> (piece.count - 1 - k)) as u32) {
                    piece.count -= k + 1;
                    return true;
                }
            }
        }
        self.register = window as u32;
        piece.count = 0;
        false
    }

    fn slot(&mut self, word: Option<u32>, place: u32) -> bool {
        match word {
            None => self.page = None,
            Some(v) if v >> 31 == 1 => {
                if self.page.is_some() {
                    if self.groups.len() == 350 {
                        self.page = None;
                    } else {
                        self.groups.push(v >> 11 & 0xF_FFFF);
                    }
                }
            }
            Some(v) => {
                self.ready = self.page;
                if self.ready.is_none() {
                    self.groups.clear();
                }
                let is_own = 8 * (v >> 13) + place / 2 == CAPCODE;
                self.page = if is_own { Some(v >> 11 & 3) } else { None };
                return self.ready.is_some();
            }
        }
        false
    }

    /// The bit at a place of the groups.
    fn bit(&self, place: usize) -> u8 {
        (self.groups[place / 20] >> (19 - place % 20) & 1) as u8
    }

    /// The text of a page: alphanumeric where the function is 3, numeric where it is 0.
    fn text(&self, function: u32, into: &mut [u8; 1750]) -> usize {
        let (width, blank) = match function {
            0 => (4, b' '),
            3 => (7, 0),
            _ => return 0,
        };
        let mut count = 20 * self.groups.len() / width;
        for (k, character) in into[..count].iter_mut().enumerate() {
            let code = (0..width).rev().fold(0, |code, i| code * 2 + self.bit(width * k + i));
            *character = if width == 4 { b"0123456789*U -]["[code as usize] } else { code };
        }
        while count > 0 && into[count - 1] == blank {
            count -= 1;
        }
        count
    }
}

/// A one for each word that differs from SYNC in one of the bits from `first` on and below `end`, at the place of the word's lowest bit.
fn wrong_bits(window: u64, first: u32, end: u32) -> u64 {
    (first..end).rev().fold(0, |wrong, place| wrong >> 1 | if SYNC >> place & 1 == 1 { !window } else { window }) >> first
}

/// Whether each of the 32 lowest words of a window has a wrong bit in each of three parts, so that none is near SYNC.
fn has_no_sync(window: u64) -> bool {
    (wrong_bits(window, 0, 11) & wrong_bits(window, 11, 22) & wrong_bits(window, 22, 32)) as u32 == u32::MAX
}

/// Puts the line of a page.
pub fn print(out: &mut File, pieces: &Pieces, function: u32) -> std::io::Result<()> {
    let mut text = [0; 1750];
    let length = pieces.text(function, &mut text);
    let mut line = Vec::with_capacity(2811);
    for place in [1_000_000, 100_000, 10_000, 1_000, 100, 10, 1] {
        line.push(b'0' + (CAPCODE / place % 10) as u8);
    }
    line.extend_from_slice(&[b' ', b"N12A"[function as usize], b' ']);
    for c in &text[..length] {
        match c {
            b'\\' => line.extend_from_slice(b"\\\\"),
            b'\n' => line.extend_from_slice(b"\\n"),
            b'\r' => line.extend_from_slice(b"\\r"),
            0x20..=0x7E => line.push(*c),
            _ => line.extend_from_slice(&[b'\\', b'x', HEX_DIGITS[usize::from(c / 16)], HEX_DIGITS[usize::from(c % 16)]]),
        }
    }
    line.push(b'\n');
    out.write_all(b"01 ")?;
    out.write_all(&line)
}

fn main() -> std::io::Result<()> {
    let name = std::env::args().nth(1).expect("a file");
    let mut file = File::open(name)?;
    let mut out = ManuallyDrop::new(unsafe { File::from_raw_fd(1) });
    let code = Code::new();
    let mut pieces = Pieces::new();
    let mut buffer = [0; 4096];
    loop {
        let n = file.read(&mut buffer)?;
        if n == 0 {
            return Ok(());
        }
        for word in buffer[..n].chunks(4) {
            let bits = word.iter().fold(0, |bits, byte| bits << 8 | u32::from(*byte));
            let mut piece = Piece { bits, count: 8 * word.len() as u32 };
            while piece.count > 0 {
                if pieces.feed(&code, &mut piece) && let Some(function) = pieces.ready {
                    print(&mut out, &pieces, function)?;
                }
            }
        }
    }
}
