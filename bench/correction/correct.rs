//! How long the proved `correct` takes beside the same algorithm in plain Rust, over random codewords with no, one and two wrong bits.
//! `run` in this folder builds and starts it.

use std::hint::black_box;
use std::time::Instant;

/// Words in one pass.
const WORDS: usize = 1 << 16;

/// Passes over the words for one time.
const PASSES: u32 = 200;

/// Times taken of each; the least counts.
const TIMES: u32 = 15;

const GENERATOR: u32 = 0x769;

unsafe extern "C" {
    /// The proved `correct` over these words: each is replaced by its codeword, or by 0 where there is none.
    fn correct_words(words: *mut u32, count: usize);
}

/// The tables of the plain program, computed.
struct Tables {
    low: [u32; 128],
    middle: [u32; 128],
    high: [u32; 128],
    patterns: [u32; 1024],
}

const fn long_division(mut bits: u32) -> u32 {
    let mut at = 30;
    while at >= 10 {
        if bits >> at & 1 == 1 {
            bits ^= GENERATOR << (at - 10);
        }
        at -= 1;
    }
    bits
}

const fn tables() -> Tables {
    let mut made = Tables {
        low: [0; 128],
        middle: [0; 128],
        high: [0; 128],
        patterns: [0x7FFF_FFFF; 1024],
    };
    let mut i = 0;
    while i < 128 {
        made.low[i] = long_division((i as u32) << 10);
        made.middle[i] = long_division((i as u32) << 17);
        made.high[i] = long_division((i as u32) << 24);
        i += 1;
    }
    made.patterns[0] = 0;
    let mut a = 0;
    while a < 31 {
        made.patterns[long_division(1 << a) as usize] = 1 << a;
        let mut b = 0;
        while b < a {
            let pattern = 1 << a | 1 << b;
            made.patterns[long_division(pattern) as usize] = pattern;
            b += 1;
        }
        a += 1;
    }
    made
}

static TABLES: Tables = tables();

fn remainder(bits: u32) -> u32 {
    let low = TABLES.low[(bits >> 10 & 0x7F) as usize];
    let middle = TABLES.middle[(bits >> 17 & 0x7F) as usize];
    let high = TABLES.high[(bits >> 24) as usize];
    (bits & 0x3FF) ^ low ^ middle ^ high
}

fn correct(w: u32) -> Option<u32> {
    let heard = w >> 1;
    let sent = heard ^ TABLES.patterns[remainder(heard) as usize];
    let v = sent << 1 | sent.count_ones() & 1;
    if (w ^ v).count_ones() <= 2 { Some(v) } else { None }
}

#[inline(never)]
fn plain_words(words: &mut [u32]) {
    for word in words {
        *word = correct(*word).unwrap_or(0);
    }
}

fn codeword(front: u32) -> u32 {
    let bits = front << 10 | long_division(front << 10);
    bits << 1 | bits.count_ones() & 1
}

/// A linear generator, its high half.
fn random(state: &mut u64) -> u32 {
    *state = state.wrapping_mul(6_364_136_223_846_793_005).wrapping_add(1_442_695_040_888_963_407);
    (*state >> 32) as u32
}

/// Random codewords with this many wrong bits in each, or with no, one and two in turn.
fn words(wrong: Option<u32>) -> Vec<u32> {
    let mut state = 1;
    let mut made = Vec::with_capacity(WORDS);
    for _ in 0..WORDS {
        let mut word = codeword(random(&mut state) >> 11);
        let first = random(&mut state) % 32;
        let second = (first + 1 + random(&mut state) % 31) % 32;
        let wrong = wrong.unwrap_or(random(&mut state) % 3);
        if wrong > 0 {
            word ^= 1 << first;
        }
        if wrong > 1 {
            word ^= 1 << second;
        }
        made.push(word);
    }
    made
}

/// Nanoseconds a word, without the time of copying the words.
fn time(words: &[u32], turn: &mut dyn FnMut(&mut [u32])) -> f64 {
    let mut copy = words.to_vec();
    let start = Instant::now();
    for _ in 0..PASSES {
        copy.copy_from_slice(black_box(words));
        turn(black_box(&mut copy));
    }
    start.elapsed().as_nanos() as f64 / PASSES as f64 / words.len() as f64
}

fn main() {
    println!("| wrong bits | proved, ns a word | plain Rust, ns a word | ratio |");
    println!("|---|---|---|---|");
    let rows = [
        ("0", Some(0)),
        ("1", Some(1)),
        ("2", Some(2)),
        ("0, 1 and 2 mixed", None),
    ];
    for (name, wrong) in rows {
        let words = words(wrong);
        let mut proved = |all: &mut [u32]| unsafe { correct_words(all.as_mut_ptr(), all.len()) };
        let mut plain = |all: &mut [u32]| plain_words(all);
        let (mut a, mut b) = (words.clone(), words.clone());
        proved(&mut a);
        plain(&mut b);
        assert!(a == b, "both answer the same");
        let (mut fast, mut base) = (f64::MAX, f64::MAX);
        for _ in 0..TIMES {
            fast = fast.min(time(&words, &mut proved));
            base = base.min(time(&words, &mut plain));
        }
        println!("| {name} | {fast:.2} | {base:.2} | {:.2} |", fast / base);
    }
}
