#!/bin/sh
# Refuses each request for memory of a run in turn, for every command of the program, and checks what the run comes to. It wants rt and
# Python 3, and takes some minutes.
#
# `rt try --fail-alloc N` compiles a program without proof, and runs it with its Nth request for memory refused. It compiles anew for
# each N. So N is fixed here, and `main` of a copy of `page_tool` first makes some requests of its own, as many as the first bytes of its
# input say; then it goes on as it stands in the repository. N less these is the request of the run that is refused. After the run it
# makes further requests, up to the one that is refused, and so tells how many the run made.
set -eu
. "$(dirname -- "$0")/../workspace.sh"

workspace $(sed -n 's/^\([a-z0-9_]*\):.*/\1/p' "$top/crates.txt" | grep -vx -e page_tool -e vectors)
mkdir -p "$work/crates/page_tool"
cp -r "$top/crates/page_tool/src" "$work/crates/page_tool/"
grep '^page_tool:' "$top/crates.txt" >>"$work/crates.txt"
cp "$top/HANDLES" "$work/"

cat >"$work/crates/page_tool/src/refusals.rt" <<'REFUSALS'
//! Requests for memory before and after a run of the program. A script adds this module to a copy of `page_tool`.

use std::fs::File;
use std::io::Read;
use std::rt::Files;
use system_io::streams::InSource;
use wires::source::Source;

/// So many are made after a run, or fewer if one is refused.
const AFTER: u32 = 2_000;

/// Makes so many requests, each given back at once, up to one that is refused. It answers how many were met.
fn make<R: AllocGlobal>(rt: &R, most: u32) -> u32 {
    let mut met = 0u32;
    while met < most && String::from_str(rt.alloc(), "a request").is_ok() {
        met += 1;
    }
    met
}

/// Makes as many requests as the first four bytes of the input say, which are digits. First it opens a file that isn't there: the
/// toolchain's interpreter can't do that, and so leaves the program to the compiled run at once.
pub fn before<R: AllocGlobal + Files, I: Read + Drop>(rt: &R, input: I) -> u32 {
    let _ = File::open(rt, "no-such-file");
    let mut digits = [0u8; 4];
    let _ = InSource::over(input).take(&mut digits);
    let mut wanted = 0u32;
    for digit in &digits {
        wanted = wanted * 10 + u32::from(digit.wrapping_sub(b'0'));
    }
    make(rt, wanted)
}

/// How many requests are met after the run.
pub fn after<R: AllocGlobal>(rt: &R) -> u32 {
    make(rt, AFTER)
}
REFUSALS

python3 "$here/refuse.py" "$work" "$top/examples"
