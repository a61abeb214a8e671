#!/bin/sh
# Times the proved terminal, with its settings and its pool, beside a plain Rust one of the same states, over sessions of nearly
# 1,000,000 characters of valid blocks. It needs rt and rustc.
#
# The proved crates are copied into a workspace of their own, with a program over the terminal, and are proved and built there.
set -eu
. "$(dirname -- "$0")/../workspace.sh"

workspace tap_terminal
mkdir -p "$work/crates/measure/src"
echo 'measure: tap_terminal page_pool subscribers tap_block page_text codeword bch31 bits wires toml arrayvec anyhow' >>"$work/crates.txt"
cat >"$work/crates/measure/src/main.rt" <<'RT'
//! Times sessions of nearly 1,000,000 characters of valid blocks, fed to the proved terminal.
#![tactic(auto)]

use page_pool::Pool;
use std::alloc::{AllocError, Global};
use std::time::Instant;
use subscribers::Settings;
use tap_terminal::{Answer, Terminal};

/// A logon, and so many blocks with the id 5551234 and so many letters.
fn session(alloc: Global, letters: usize, count: usize) -> Result<Vec<u8>, AllocError> {
    let mut block = Vec::new(alloc);
    block.extend_from_slice(b"\x025551234\r")?;
    for _ in 0..letters {
        block.push(b'A')?;
    }
    block.extend_from_slice(b"\r\x03")?;
    let sum = tap_block::sum(&block);
    block.extend_from_slice(&sum)?;
    block.push(b'\r')?;
    let mut session = Vec::new(alloc);
    session.extend_from_slice(b"\r\x1BPG1\r")?;
    for _ in 0..count {
        session.extend_from_slice(&block)?;
    }
    Ok(session)
}

/// Feeds a session to a new terminal. How many blocks were answered Ack.
fn fed(session: &[u8], settings: &Settings, pool: &mut Pool) -> u32 {
    let mut terminal = Terminal::new(None);
    let mut acks = 0u32;
    for byte in session {
        if terminal.feed(*byte, settings, pool) == Answer::Ack {
            acks = acks.wrapping_add(1);
        }
    }
    acks
}

fn main(rt: HostRuntime) -> anyhow::Result<()> {
    let file = b"cells = 64\n[[subscriber]]\nid = \"5551234\"\ncapcode = 8\nclass = \"alpha\"\n";
    let Ok(settings) = Settings::read(rt.alloc(), file) else {
        println!(rt; "refused")?;
        return Ok(());
    };
    for (letters, count) in [(5usize, 49_900usize), (241, 3_900)] {
        let session = session(rt.alloc(), letters, count)?;
        for _ in 0..9u8 {
            let Ok(mut pool) = Pool::new(rt.alloc(), 65_536) else {
                println!(rt; "no memory")?;
                return Ok(());
            };
            let start = Instant::now(&rt)?;
            let acks = fed(&session, &settings, &mut pool);
            let took = start.elapsed(&rt)?;
            println!(rt; "proved {} {} {} {}", letters, session.len(), acks, took.as_micros())?;
        }
    }
    Ok(())
}
RT
rustc -O -o "$work/plain" "$here/plain.rs"
cd "$work/crates/measure"
rt run >"$work/proved.txt" 2>"$work/log" || { cat "$work/log" >&2; exit 1; }
# The two take turns, so that both meet what else the machine does.
for turn in 1 2 3; do
    "$work/plain"
    rt run 2>"$work/log"
done >"$work/times.txt"
awk '
    { ns = $5 * 1000 / $3; if (!($1 $2 in least) || ns < least[$1 $2]) least[$1 $2] = ns }
    END {
        print "| texts | proved | plain Rust | ratio |"
        print "|---|---|---|---|"
        count = split("5 241", keys, " ")
        for (k = 1; k <= count; k++) {
            key = keys[k]
            proved = least["proved" key]
            plain = least["plain" key]
            printf "| %d characters, in blocks of %d | %.2f ns a byte | %.2f ns a byte | %.2f |\n", key, key + 15, proved, plain, proved / plain
        }
    }
' "$work/times.txt"
