//! A plain Rust session of SNPP of the same states as the proved one, with the plain pool, and the clock that times them.

#[path = "../terminal/pool.rs"]
mod pool;

use pool::{Pool, Subscriber, fits};
use std::collections::BTreeMap;
use std::hint::black_box;
use std::time::Instant;

const CR: u8 = 0x0D;
const LF: u8 = 0x0A;
const LONGEST_LINE: usize = 1100;

/// Up to so many characters.
struct Kept<const N: usize> {
    chars: [u8; N],
    len: usize,
}

impl<const N: usize> Kept<N> {
    fn new() -> Kept<N> {
        Kept {
            chars: [0; N],
            len: 0,
        }
    }

    fn set(&mut self, chars: &[u8]) {
        self.chars[..chars.len()].copy_from_slice(chars);
        self.len = chars.len();
    }

    fn slice(&self) -> &[u8] {
        &self.chars[..self.len]
    }
}

/// Characters that are pending, or none.
struct Pending {
    chars: Kept<LONGEST_LINE>,
    is_there: bool,
}

impl Pending {
    fn new() -> Pending {
        Pending {
            chars: Kept::new(),
            is_there: false,
        }
    }

    fn set(&mut self, chars: &[u8]) {
        self.chars.set(chars);
        self.is_there = true;
    }

    fn get(&self) -> Option<&[u8]> {
        self.is_there.then(|| self.chars.slice())
    }
}

#[derive(Clone, Copy, PartialEq)]
enum Answer {
    Nothing,
    Ok,
    Bye,
    TooLong,
    Command,
    Twice,
    Missing,
    Pager,
    Text,
    Room,
}

/// As the proved one counts.
#[allow(dead_code)]
struct Report {
    pages: u32,
    refused: u32,
}

struct Snpp {
    id: Pending,
    text: Pending,
    kept: Kept<{ LONGEST_LINE + 1 }>,
    count: u32,
    heard: u32,
    report: Report,
    over: bool,
}

impl Snpp {
    fn new() -> Snpp {
        Snpp {
            id: Pending::new(),
            text: Pending::new(),
            kept: Kept::new(),
            count: 0,
            heard: 0,
            report: Report {
                pages: 0,
                refused: 0,
            },
            over: false,
        }
    }

    #[inline(always)]
    fn feed(
        &mut self,
        byte: u8,
        settings: &BTreeMap<Vec<u8>, Subscriber>,
        pool: &mut Pool,
    ) -> Answer {
        if self.over {
            return Answer::Nothing;
        }
        if self.heard + 1 == 1_000_000 {
            self.over = true;
            return Answer::TooLong;
        }
        self.heard += 1;
        let c = byte % 128;
        if c != LF {
            if self.kept.len < LONGEST_LINE + 1 {
                self.kept.chars[self.kept.len] = c;
                self.kept.len += 1;
            }
            if self.count < LONGEST_LINE as u32 + 2 {
                self.count += 1;
            }
            return Answer::Nothing;
        }
        let answer = self.answer(settings, pool);
        self.kept.len = 0;
        self.count = 0;
        match answer {
            Answer::Nothing | Answer::Ok | Answer::TooLong => {}
            Answer::Bye => self.over = true,
            _ => self.report.refused += 1,
        }
        answer
    }

    // Not inlined, so that `feed` has no room for texts in its frame.
    #[inline(never)]
    fn answer(&mut self, settings: &BTreeMap<Vec<u8>, Subscriber>, pool: &mut Pool) -> Answer {
        let piece = self.kept.slice();
        let line = piece.strip_suffix(&[CR]).unwrap_or(piece);
        if self.count as usize > LONGEST_LINE + 1 || line.len() > LONGEST_LINE {
            return Answer::Command;
        }
        let (verb, argument) = match line.iter().position(|c| *c == b' ') {
            Some(at) => (&line[..at], &line[at + 1..]),
            None => (line, &line[line.len()..]),
        };
        let is = |word: &[u8]| verb.eq_ignore_ascii_case(word);
        if is(b"PAGE") || is(b"PAGER") {
            if self.id.is_there {
                return Answer::Twice;
            }
            if !settings.contains_key(argument) {
                return Answer::Pager;
            }
            self.id.set(argument);
            Answer::Ok
        } else if is(b"MESS") || is(b"MESSAGE") {
            if self.text.is_there {
                return Answer::Twice;
            }
            self.text.set(argument);
            Answer::Ok
        } else if !argument.is_empty() {
            Answer::Command
        } else if is(b"RESE") || is(b"RESET") {
            self.id.is_there = false;
            self.text.is_there = false;
            Answer::Ok
        } else if is(b"SEND") {
            self.send(settings, pool)
        } else if is(b"QUIT") {
            Answer::Bye
        } else {
            Answer::Command
        }
    }

    fn send(&mut self, settings: &BTreeMap<Vec<u8>, Subscriber>, pool: &mut Pool) -> Answer {
        let Some(to) = self.id.get().and_then(|id| settings.get(id)) else {
            return Answer::Missing;
        };
        let text = match self.text.get() {
            Some(text) => text,
            None if to.function == 3 => return Answer::Missing,
            None => b"",
        };
        let answer = if !fits(*to, text) {
            Answer::Text
        } else if pool.put(*to, text) {
            self.report.pages += 1;
            Answer::Ok
        } else {
            Answer::Room
        };
        self.id.is_there = false;
        self.text.is_there = false;
        answer
    }
}

/// So many pages to the id 5551234 with so many letters.
fn session(letters: usize, count: usize) -> Vec<u8> {
    let mut page = b"PAGE 5551234\r\nMESS ".to_vec();
    page.extend(std::iter::repeat_n(b'A', letters));
    page.extend_from_slice(b"\r\nSEND\r\n");
    page.repeat(count)
}

/// Feeds a session. How many characters were answered Ok.
#[inline(never)]
fn fed(session: &[u8], settings: &BTreeMap<Vec<u8>, Subscriber>, pool: &mut Pool) -> u32 {
    let mut snpp = Snpp::new();
    let mut taken = 0;
    for byte in session {
        if snpp.feed(*byte, settings, pool) == Answer::Ok {
            taken += 1;
        }
    }
    taken
}

fn main() {
    let to = Subscriber {
        capcode: 8,
        function: 3,
    };
    let settings = BTreeMap::from([(b"5551234".to_vec(), to)]);
    for (letters, count) in [(5, 31_200), (241, 3_700)] {
        let session = session(letters, count);
        for _ in 0..9 {
            let mut pool = Pool::new(65_536);
            let start = Instant::now();
            let taken = fed(black_box(&session), &settings, &mut pool);
            let took = start.elapsed();
            println!("plain {letters} {} {taken} {}", session.len(), took.as_nanos());
        }
    }
}
