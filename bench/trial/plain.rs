//! `trial` in plain Rust, for settings of one subscriber and one receiver: the terminal and the pool of `../terminal`, the transmission of the
//! pool's pages, 32 bits of it and of a noise at a time, and the receiver of `../play`. It prints the same lines. `run.sh` in this folder
//! builds and starts it.

#[path = "../play/plain.rs"]
#[allow(dead_code)]
mod play;
#[path = "../terminal/plain.rs"]
#[allow(dead_code)]
mod terminal;

use play::{Code, Piece, Pieces, print};
use std::collections::BTreeMap;
use std::fs::File;
use std::io::{Read, Write};
use std::mem::ManuallyDrop;
use std::os::fd::FromRawFd;
use terminal::{Answer, NONE, Pool, Subscriber, Terminal};

const SYNC: u32 = 0x7CD2_15D8;
const IDLE: u32 = 0x7A89_C197;
const FILLER: u32 = 0xAAAA_AAAA;
const PREAMBLE: u32 = 18;

/// The check bits of each byte's place in the 21 bits of a codeword.
struct Checks([[u32; 128]; 3]);

impl Checks {
    fn new() -> Checks {
        let check = |front: u32| {
            let mut rest = front << 10;
            for at in (10..=30).rev() {
                if rest >> at & 1 == 1 {
                    rest ^= 0x769 << (at - 10);
                }
            }
            rest
        };
        Checks([0, 7, 14].map(|shift| std::array::from_fn(|i| check((i as u32) << shift))))
    }

    fn codeword(&self, front: u32) -> u32 {
        let [low, middle, high] = &self.0;
        let checks = low[(front & 0x7F) as usize] ^ middle[(front >> 7 & 0x7F) as usize] ^ high[(front >> 14) as usize];
        let bits = front << 10 | checks;
        bits << 1 | bits.count_ones() & 1
    }
}

#[derive(Clone, Copy)]
enum Before {
    Idle,
    RunEnd,
    InRun(usize, usize),
}

/// How far the transmission of a pool's pages has come.
struct Sending {
    preamble: u32,
    room: u32,
    place: usize,
    before: Before,
    text: [u8; 1000],
    length: usize,
}

impl Sending {
    fn next(&mut self, pool: &mut Pool, checks: &Checks) -> Option<u32> {
        if self.preamble > 0 {
            self.preamble -= 1;
            return Some(FILLER);
        }
        if matches!(self.before, Before::Idle) && self.place == 0 && pool.first == NONE {
            return None;
        }
        if self.room == 0 {
            self.room = 16;
            return Some(SYNC);
        }
        self.room -= 1;
        let word = self.slot(pool, checks);
        self.place = (self.place + 1) % 16;
        Some(word)
    }

    fn slot(&mut self, pool: &mut Pool, checks: &Checks) -> u32 {
        if let Before::InRun(frame, k) = self.before {
            let group = (20 * k..20 * k + 20).fold(0, |group, at| group << 1 | self.bit(at));
            self.before = if 20 * (k + 1) < 7 * self.length {
                Before::InRun(frame, k + 1)
            } else {
                pool.take(frame);
                Before::RunEnd
            };
            return checks.codeword(1 << 20 | group);
        }
        let frame = self.place / 2;
        let start = pool.frames[frame].0;
        if start == NONE {
            self.before = Before::Idle;
            return IDLE;
        }
        let Some(to) = pool.heads[start as usize].address else {
            unreachable!();
        };
        self.length = pool.copy_text(start, &mut self.text);
        self.before = if self.length == 0 {
            pool.take(frame);
            Before::RunEnd
        } else {
            Before::InRun(frame, 0)
        };
        checks.codeword(to.capcode / 8 << 2 | to.function)
    }

    /// A bit of the text, each character's least significant bit first, and 0 behind it.
    fn bit(&self, at: usize) -> u32 {
        if at / 7 < self.length { u32::from(self.text[at / 7] >> (at % 7) & 1) } else { 0 }
    }
}

/// The words of a noise, which are 0 behind its end.
struct Noise {
    file: File,
    bytes: [u8; 4096],
    at: usize,
    end: usize,
}

impl Noise {
    fn next(&mut self) -> std::io::Result<u32> {
        let mut word = [0; 4];
        for byte in &mut word {
            if self.at == self.end {
                (self.at, self.end) = (0, self.file.read(&mut self.bytes)?);
                if self.end == 0 {
                    break;
                }
            }
            *byte = self.bytes[self.at];
            self.at += 1;
        }
        Ok(u32::from_be_bytes(word))
    }
}

/// The line of an answer.
fn line(answer: Answer) -> &'static [u8] {
    match answer {
        Answer::Nothing => b"",
        Answer::Id => b"ID\n",
        Answer::Go => b"GO\n",
        Answer::Ack => b"ACK\n",
        Answer::Nak => b"NAK\n",
        Answer::Rs => b"RS\n",
        Answer::End => b"END\n",
    }
}

fn answer_input(out: &mut File, pool: &mut Pool) -> std::io::Result<()> {
    let settings = BTreeMap::from([(b"5551234".to_vec(), Subscriber { capcode: 8, function: 3 })]);
    let mut input = std::io::stdin().lock();
    let mut terminal = Terminal::new();
    let mut buffer = [0; 4096];
    while !terminal.ended {
        let n = input.read(&mut buffer)?;
        if n == 0 {
            break;
        }
        for byte in &buffer[..n] {
            let answer = terminal.feed(*byte, &settings, pool);
            if answer != Answer::Nothing {
                out.write_all(line(answer))?;
            }
        }
    }
    Ok(())
}

fn main() -> std::io::Result<()> {
    let noise = std::env::args().nth(1).expect("a noise");
    let mut out = ManuallyDrop::new(unsafe { File::from_raw_fd(1) });
    let mut pool = Pool::new(65_536);
    answer_input(&mut out, &mut pool)?;
    out.write_all(b"---\n")?;
    let mut noise = Noise { file: File::open(noise)?, bytes: [0; 4096], at: 0, end: 0 };
    let checks = Checks::new();
    let code = Code::new();
    let mut sending = Sending { preamble: PREAMBLE, room: 0, place: 0, before: Before::Idle, text: [0; 1000], length: 0 };
    let mut pieces = Pieces::new();
    while let Some(word) = sending.next(&mut pool, &checks) {
        let mut piece = Piece { bits: word ^ noise.next()?, count: 32 };
        while piece.count > 0 {
            if pieces.feed(&code, &mut piece) && let Some(function) = pieces.ready {
                print(&mut out, &pieces, function)?;
            }
        }
    }
    Ok(())
}
