#!/bin/sh
# Times the proved session of SNPP, with its settings and its pool, beside a plain Rust one of the same states, over sessions of nearly
# 1,000,000 characters of pages. It needs rt and rustc.
#
# The proved crates are copied into a workspace of their own, with a program over the session, and are proved and built there.
set -eu
. "$(dirname -- "$0")/../workspace.sh"

workspace snpp_entry
mkdir -p "$work/crates/measure/src"
echo "measure: snpp_entry $(sed -n 's/^snpp_entry://p' "$top/crates.txt") anyhow" >>"$work/crates.txt"
cat >"$work/crates/measure/src/main.rt" <<'RT'
//! Times sessions of nearly 1,000,000 characters of pages, fed to the proved session of SNPP.
#![tactic(auto)]

use page_pool::Pool;
use snpp_entry::{Snpp, SnppAnswer};
use std::alloc::{AllocError, Global};
use std::time::Instant;
use subscribers::Settings;

/// So many pages to the id 5551234 with so many letters.
fn session(alloc: Global, letters: usize, count: usize) -> Result<Vec<u8>, AllocError> {
    let mut page = Vec::new(alloc);
    page.extend_from_slice(b"PAGE 5551234\r\nMESS ")?;
    for _ in 0..letters {
        page.push(b'A')?;
    }
    page.extend_from_slice(b"\r\nSEND\r\n")?;
    let mut session = Vec::new(alloc);
    for _ in 0..count {
        session.extend_from_slice(&page)?;
    }
    Ok(session)
}

/// Feeds a session. How many characters were answered Ok.
fn fed(session: &[u8], settings: &Settings, pool: &mut Pool) -> u32 {
    let mut snpp = Snpp::new();
    let mut taken = 0u32;
    for byte in session {
        if snpp.feed(*byte, settings, pool) == SnppAnswer::Ok {
            taken = taken.wrapping_add(1);
        }
    }
    taken
}

fn main(rt: HostRuntime) -> anyhow::Result<()> {
    let file = b"cells = 64\n[[subscriber]]\nid = \"5551234\"\ncapcode = 8\nclass = \"alpha\"\n";
    let Ok(settings) = Settings::read(rt.alloc(), file) else {
        println!(rt; "refused")?;
        return Ok(());
    };
    for (letters, count) in [(5usize, 31_200usize), (241, 3_700)] {
        let session = session(rt.alloc(), letters, count)?;
        for _ in 0..9u8 {
            let Ok(mut pool) = Pool::new(rt.alloc(), 65_536) else {
                println!(rt; "no memory")?;
                return Ok(());
            };
            let start = Instant::now(&rt)?;
            let taken = fed(&session, &settings, &mut pool);
            let took = start.elapsed(&rt)?;
            println!(rt; "proved {} {} {} {}", letters, session.len(), taken, took.as_nanos())?;
        }
    }
    Ok(())
}
RT
rustc -O -o "$work/plain" "$here/plain.rs"
cd "$work/crates/measure"
rt run >"$work/proved.txt" 2>"$work/log" || { cat "$work/log" >&2; exit 1; }
# The two take turns, so that both meet what else the machine does.
for turn in 1 2 3; do
    "$work/plain"
    rt run 2>"$work/log"
done >"$work/times.txt"
awk '
    { ns = $5 / $3; if (!($1 $2 in least) || ns < least[$1 $2]) least[$1 $2] = ns }
    END {
        print "| texts | proved | plain Rust | ratio |"
        print "|---|---|---|---|"
        count = split("5 241", keys, " ")
        for (k = 1; k <= count; k++) {
            key = keys[k]
            proved = least["proved" key]
            plain = least["plain" key]
            printf "| %d characters, in pages of %d | %.2f ns a byte | %.2f ns a byte | %.2f |\n", key, key + 27, proved, plain, proved / plain
        }
    }
' "$work/times.txt"
