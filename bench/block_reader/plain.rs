//! A plain Rust scanner of the same states as the proved one, and the clock that times both over the same bytes.

mod scanner;

use scanner::{CR, ETX, Item, STX, Scanner, written};
use std::hint::black_box;
use std::time::Instant;

#[inline(never)]
fn plain(bytes: &[u8]) -> u64 {
    let mut scanner = Scanner::blocks();
    let mut read = 0;
    for byte in bytes {
        if let Some(Item::Block { sum_ok: true, length, .. }) = scanner.feed(*byte) {
            read += 1 << 32 | u64::from(length);
        }
    }
    read
}

unsafe extern "C" {
    fn block_reader_read(bytes: *const u8, length: usize) -> u64;
}

fn proved(bytes: &[u8]) -> u64 {
    // The slice's memory is readable for the length of the call, which keeps nothing of it.
    unsafe { block_reader_read(bytes.as_ptr(), bytes.len()) }
}

/// Some 1 MB of the block with this body.
fn blocks(body: &[u8]) -> Vec<u8> {
    let mut block = vec![STX];
    block.extend_from_slice(body);
    block.push(ETX);
    let total = block.iter().map(|c| u32::from(*c)).sum::<u32>() % 4096;
    block.extend_from_slice(&written(total));
    block.push(CR);
    block.repeat(1_000_000 / block.len())
}

/// How often each reads the blocks: 100 MB in all. The two take turns, so that both meet what else the machine does.
const ROUNDS: usize = 100;

/// The time of one reading, in nanoseconds a byte.
fn time(read: fn(&[u8]) -> u64, bytes: &[u8]) -> f64 {
    let start = Instant::now();
    black_box(read(black_box(bytes)));
    start.elapsed().as_secs_f64() * 1e9 / bytes.len() as f64
}

fn median(mut times: Vec<f64>) -> f64 {
    times.sort_by(f64::total_cmp);
    times[times.len() / 2]
}

fn main() {
    println!("| blocks | proved | plain Rust | ratio |");
    println!("|---|---|---|---|");
    let longest = [b"5551234\r".as_slice(), &[b'A'; 241], b"\r"].concat();
    for (name, body) in [("250 characters", longest.as_slice()), ("14 characters", b"5551234\rHELLO\r")] {
        let bytes = blocks(body);
        assert_eq!(proved(&bytes), plain(&bytes));
        let (of_proved, of_plain): (Vec<_>, Vec<_>) =
            (0..ROUNDS).map(|_| (time(proved, &bytes), time(plain, &bytes))).unzip();
        let (proved, plain) = (median(of_proved), median(of_plain));
        println!("| bodies of {name} | {proved:.2} ns a byte | {plain:.2} ns a byte | {:.2} |", proved / plain);
    }
}
