//! How long the proved `Receiver` takes for a bit beside the same algorithm in plain Rust, over random bits, over idle batches and over
//! pages. `run.sh` in this folder builds and starts it.

mod plain;

use plain::{CAPCODE, Code, Plain, SYNC, long_division};
use std::hint::black_box;
use std::time::Instant;

/// Bytes in one pass.
const BYTES: usize = 1 << 18;

/// Times taken of each; the least counts.
const TIMES: u32 = 15;

const IDLE: u32 = 0x7A89_C197;

unsafe extern "C" {
    /// How many pages the proved receiver of this capcode hears in the bits of these bytes.
    fn hear_pages(capcode: u32, bytes: *const u8, count: usize) -> u32;
}

fn codeword(front: u32) -> u32 {
    let bits = front << 10 | long_division(front << 10);
    bits << 1 | bits.count_ones() & 1
}

#[inline(never)]
fn plain_pages(code: &Code, bytes: &[u8]) -> u32 {
    let mut plain = Plain::new();
    let mut pages = 0;
    for byte in bytes {
        for k in (0..8).rev() {
            pages += u32::from(plain.feed(code, byte >> k & 1 == 1));
        }
    }
    pages
}

/// A linear generator, its high half.
fn random(state: &mut u64) -> u32 {
    *state = state.wrapping_mul(6_364_136_223_846_793_005).wrapping_add(1_442_695_040_888_963_407);
    (*state >> 32) as u32
}

/// The bytes of words, as many as a pass has.
fn bytes(words: impl Iterator<Item = u32>) -> Vec<u8> {
    words.take(BYTES / 4).flat_map(u32::to_be_bytes).collect()
}

/// Batches of these 16 slots, with at most two wrong bits in each word.
fn batches(slots: [u32; 16]) -> Vec<u8> {
    let mut state = 1;
    let batch = std::iter::once(SYNC).chain(slots).cycle();
    bytes(batch.map(|word| word ^ 1 << (random(&mut state) % 32) ^ 1 << (random(&mut state) % 32)))
}

/// Nanoseconds a bit.
fn time(bytes: &[u8], hear: &mut dyn FnMut(&[u8]) -> u32) -> f64 {
    let start = Instant::now();
    black_box(hear(black_box(bytes)));
    start.elapsed().as_nanos() as f64 / bytes.len() as f64 / 8.0
}

fn main() {
    let code = Code::new();
    let mut state = 7;
    let page: [u32; 16] = std::array::from_fn(|k| {
        let front = if k % 4 == 0 { (CAPCODE >> 3) << 2 | 3 } else { 1 << 20 | random(&mut state) >> 12 };
        codeword(front)
    });
    println!("| bits | proved, ns a bit | plain Rust, ns a bit | ratio |");
    println!("|---|---|---|---|");
    let rows = [
        ("random", bytes(std::iter::repeat_with(|| random(&mut state)))),
        ("idle batches", batches([IDLE; 16])),
        ("pages of three message words", batches(page)),
    ];
    for (name, bits) in rows {
        let mut proved = |all: &[u8]| unsafe { hear_pages(CAPCODE, all.as_ptr(), all.len()) };
        let mut plain = |all: &[u8]| plain_pages(&code, all);
        assert_eq!(proved(&bits), plain(&bits), "both hear the same");
        let (mut fast, mut base) = (f64::MAX, f64::MAX);
        for _ in 0..TIMES {
            fast = fast.min(time(&bits, &mut proved));
            base = base.min(time(&bits, &mut plain));
        }
        println!("| {name} | {fast:.2} | {base:.2} | {:.2} |", fast / base);
    }
}
