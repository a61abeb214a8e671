#!/bin/sh
# Times the proved `Receiver` beside the same algorithm in plain Rust. It wants `rt` and `rustc` on the path.
#
# The proved crates are copied into a workspace of their own, with a static library over `Receiver`, and are proved and built there.
set -eu
. "$(dirname -- "$0")/../workspace.sh"

workspace receiver
mkdir -p "$work/crates/receiver_c/src"
echo 'receiver_c staticlib: receiver page_text codeword bch31 bits wires arrayvec' >>"$work/crates.txt"
cat >"$work/crates/receiver_c/src/lib.rt" <<'RT'
//! A receiver, for the measuring program.
#![tactic(auto)]

use codeword::Capcode;
use receiver::Receiver;

/// How many pages a receiver of this capcode hears in the bits of these bytes.
#[unsafe(no_mangle)]
pub extern "C" fn hear_pages(capcode: u32, bytes: &[u8]) -> u32 {
    let Some(capcode) = Capcode::of(capcode) else {
        return 0;
    };
    let mut receiver = Receiver::new(&[capcode]);
    let mut pages = 0u32;
    for byte in bytes {
        for k in 0..8u32 {
            if receiver.feed((*byte >> (7 - k)) & 1 == 1).is_some() {
                pages = pages.saturating_add(1);
            }
        }
    }
    pages
}
RT

cd "$work/crates/receiver_c"
rt lib >"$work/log" 2>&1 || { cat "$work/log" >&2; exit 1; }
rustc --edition 2024 -O -C target-cpu=x86-64-v2 -L "$work/crates/receiver_c/out" -l static=receiver_c -o "$work/hear" "$here/hear.rs"
"$work/hear"
