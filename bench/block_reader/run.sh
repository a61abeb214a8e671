#!/bin/sh
# Times the proved scanner of crates/tap_block beside a plain Rust scanner of the same states, in one process, over 100 MB of valid
# blocks. It needs rt and rustc. The crates are copied to a folder of their own, where a static library over the scanner is made.
set -eu
. "$(dirname -- "$0")/../workspace.sh"

workspace tap_block
mkdir -p "$work/crates/block_reader/src"
echo 'block_reader staticlib: tap_block' >>"$work/crates.txt"
cat > "$work/crates/block_reader/src/lib.rt" <<'TEXT'
//! The scanner for a caller in Rust: how many blocks with a right trailer the bytes have, and the lengths of their bodies.
#![tactic(auto)]

use tap_block::{Item, Scanner};

#[unsafe(no_mangle)]
pub extern "C" fn block_reader_read(bytes: &[u8]) -> u64 {
    let mut scanner = Scanner::blocks();
    let mut read = 0u64;
    for byte in bytes {
        if let Some(Item::Block { sum_ok: true, length, .. }) = scanner.feed(*byte) {
            read = read.wrapping_add(1 << 32 | length as u64);
        }
    }
    read
}
TEXT
(cd "$work/crates/block_reader" && rt lib)
rustc -O -o "$work/bench" "$here/plain.rs" -L "$work/crates/block_reader/out" -l static=block_reader
"$work/bench"
