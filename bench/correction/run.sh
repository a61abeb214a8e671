#!/bin/sh
# Times the proved `correct` beside the same algorithm in plain Rust. It wants `rt` and `rustc` on the path.
#
# The proved crates are copied into a workspace of their own, with a static library over `correct`, and are proved and built there.
set -eu
. "$(dirname -- "$0")/../workspace.sh"

workspace bch31
mkdir -p "$work/crates/correct_c/src"
echo 'correct_c staticlib: bch31' >>"$work/crates.txt"
cat >"$work/crates/correct_c/src/lib.rt" <<'RT'
//! The correction, for the measuring program.
#![tactic(auto)]

/// Each word is replaced by its codeword, or by 0 where there is none.
#[unsafe(no_mangle)]
pub extern "C" fn correct_words(words: &mut [u32]) {
    for word in words {
        *word = match bch31::correct(*word) {
            Some(v) => v,
            None => 0,
        };
    }
}
RT

cd "$work/crates/correct_c"
rt lib >"$work/log" 2>&1 || { cat "$work/log" >&2; exit 1; }
rustc --edition 2024 -O -C target-cpu=x86-64-v2 -L "$work/crates/correct_c/out" -l static=correct_c -o "$work/correct" "$here/correct.rs"
"$work/correct"
