//! A plain Rust terminal of the same states as the proved one, with the plain pool, and the clock that times them.

mod pool;
#[path = "../block_reader/scanner.rs"]
pub mod scanner;

pub use pool::{NONE, Pool, Subscriber};
use pool::fits;
use scanner::{CR, ESC, ETX, End, Item, Kept, STX, Scanner, written};
use std::collections::BTreeMap;
use std::hint::black_box;
use std::time::Instant;

const SUB: u8 = 0x1A;

#[derive(Clone, Copy, PartialEq)]
pub enum Answer {
    Nothing,
    Id,
    Go,
    Ack,
    Nak,
    Rs,
    End,
}

pub struct Terminal {
    scanner: Scanner,
    joined: Kept<2200>,
    heard: u32,
    wrong: u32,
    counts: [u32; 7],
    pub ended: bool,
}

impl Terminal {
    pub fn new() -> Terminal {
        Terminal {
            scanner: Scanner::new(),
            joined: Kept::new(),
            heard: 0,
            wrong: 0,
            counts: [0; 7],
            ended: false,
        }
    }

    #[inline(always)]
    pub fn feed(&mut self, byte: u8, settings: &BTreeMap<Vec<u8>, Subscriber>, pool: &mut Pool) -> Answer {
        if self.ended {
            return Answer::Nothing;
        }
        if self.heard + 1 == 1_000_000 {
            self.ended = true;
            return Answer::End;
        }
        self.heard += 1;
        let Some(item) = self.scanner.feed(byte) else {
            return Answer::Nothing;
        };
        let answer = self.judge(item, settings, pool);
        self.ended = answer == Answer::End;
        self.counts[answer as usize] += 1;
        answer
    }

    // Not inlined, so that `feed` has no room for texts in its frame.
    #[inline(never)]
    fn judge(&mut self, item: Item, settings: &BTreeMap<Vec<u8>, Subscriber>, pool: &mut Pool) -> Answer {
        match item {
            Item::EmptyLine => Answer::Id,
            Item::Logon => Answer::Go,
            Item::WrongLine => {
                self.wrong += 1;
                if self.wrong == 3 { Answer::End } else { Answer::Nak }
            }
            Item::Bye => Answer::End,
            Item::Block { sum_ok: false, .. } => Answer::Nak,
            Item::Block { end, length, .. } => {
                let body = self.scanner.body.slice();
                if length > 250 || self.joined.len + body.len() > 2200 {
                    self.joined.len = 0;
                    return Answer::Rs;
                }
                for c in body {
                    self.joined.push(*c);
                }
                if end != End::Etx {
                    return Answer::Ack;
                }
                let answer = content(self.joined.slice(), settings, pool);
                self.joined.len = 0;
                answer
            }
        }
    }
}

/// The two parts of a content.
fn parts(content: &[u8]) -> Option<(&[u8], &[u8])> {
    let first = content.iter().position(|c| *c == CR)?;
    let behind = &content[first + 1..];
    let second = behind.iter().position(|c| *c == CR)?;
    (second + 1 == behind.len()).then(|| (&content[..first], &behind[..second]))
}

/// The value of a field.
fn value(field: &[u8]) -> Option<Kept<2200>> {
    let mut value = Kept::new();
    let mut chars = field.iter();
    while let Some(c) = chars.next() {
        match *c {
            0x20..=0x7E => value.push(*c),
            SUB => match chars.next() {
                Some(letter @ 0x40..=0x5F) => value.push(letter - 0x40),
                _ => return None,
            },
            _ => return None,
        }
    }
    Some(value)
}

fn content(content: &[u8], settings: &BTreeMap<Vec<u8>, Subscriber>, pool: &mut Pool) -> Answer {
    let Some((first, second)) = parts(content) else {
        return Answer::Rs;
    };
    let (Some(id), Some(text)) = (value(first), value(second)) else {
        return Answer::Rs;
    };
    match settings.get(id.slice()) {
        Some(to) if fits(*to, text.slice()) && pool.put(*to, text.slice()) => Answer::Ack,
        _ => Answer::Rs,
    }
}

/// A logon, and so many blocks with the id 5551234 and so many letters.
fn session(letters: usize, count: usize) -> Vec<u8> {
    let mut block = vec![STX];
    block.extend_from_slice(b"5551234\r");
    block.extend(std::iter::repeat_n(b'A', letters));
    block.extend_from_slice(&[CR, ETX]);
    let total = block.iter().map(|c| u32::from(*c)).sum::<u32>() % 4096;
    block.extend_from_slice(&written(total));
    block.push(CR);
    let mut session = vec![CR, ESC, b'P', b'G', b'1', CR];
    session.extend(block.repeat(count));
    session
}

#[inline(never)]
fn fed(session: &[u8], settings: &BTreeMap<Vec<u8>, Subscriber>, pool: &mut Pool) -> u32 {
    let mut terminal = Terminal::new();
    let mut acks = 0;
    for byte in session {
        if terminal.feed(*byte, settings, pool) == Answer::Ack {
            acks += 1;
        }
    }
    acks
}

fn main() {
    let settings = BTreeMap::from([(b"5551234".to_vec(), Subscriber { capcode: 8, function: 3 })]);
    for (letters, count) in [(5, 49_900), (241, 3_900)] {
        let session = session(letters, count);
        for _ in 0..9 {
            let mut pool = Pool::new(65_536);
            let start = Instant::now();
            let acks = fed(black_box(&session), &settings, &mut pool);
            let took = start.elapsed();
            println!("plain {letters} {} {acks} {}", session.len(), took.as_micros());
        }
    }
}
