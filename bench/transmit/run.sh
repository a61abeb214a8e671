#!/bin/sh
# Times the proved `transmit` of 10,000 pages into a file, beside `cat` of a file of that size. It needs rt.
#
# The proved crates are copied into a workspace of their own, with a program over them, and are proved and built there.
set -eu
. "$(dirname -- "$0")/../workspace.sh"

workspace air
mkdir -p "$work/crates/measure/src"
cp "$top/crates/system_io/src/streams.rt" "$work/crates/measure/src/"
echo 'measure: air scheduler page_pool page_text codeword bch31 bits wires arrayvec anyhow' >>"$work/crates.txt"
cat >"$work/crates/measure/src/main.rt" <<'RT'
//! Writes the transmission of 10,000 pages to the output, and its number of batches and its time in nanoseconds to the error stream.
#![tactic(auto)]

mod streams;

use air::{Sent, transmit};
use codeword::{Capcode, Function};
use page_pool::Pool;
use page_text::fits;
use std::time::Instant;
use streams::OutSink;
use wires::Failed;
use wires::sink::{Sink, WordBytes};
use wires::steps::{Steps, Work};

/// A text of 40 characters.
const TEXT: &[u8] = b"AIR TRAFFIC CONTROL: CALL BACK 555 1234.";

/// Puts the pages, to capcodes of all frames.
fn fill(pool: &mut Pool) {
    for n in 8..10_008u32 {
        if let Some(capcode) = Capcode::of(n) {
            if fits(Function::Alpha, TEXT).is_ok() {
                let _ = pool.put(capcode, Function::Alpha, TEXT);
            }
        }
    }
}

/// Transmits into a sink of bytes.
fn send<K: Sink>(pool: &mut Pool, sink: &mut K) -> Result<Sent, Failed> {
    let mut steps: Steps<Work> = Steps::new();
    let mut words = WordBytes::over(sink);
    transmit(pool, &mut words, &mut steps)
}

fn main(rt: HostRuntime) -> anyhow::Result<()> {
    let Ok(mut pool) = Pool::new(rt.alloc(), 65_536) else {
        return Ok(());
    };
    fill(&mut pool);
    let mut sink = OutSink::over(rt.stdout());
    let start = Instant::now(&rt)?;
    let sent = send(&mut pool, &mut sink);
    let took = start.elapsed(&rt)?;
    if let Ok(sent) = sent {
        eprintln!(rt; "{} {} {}", sent.pages, sent.batches, took.as_nanos())?;
    }
    Ok(())
}
RT
cd "$work/crates/measure"
rt run >"$work/air" 2>"$work/log" || { cat "$work/log" >&2; exit 1; }
for turn in 1 2 3 4 5 6 7 8 9; do
    rt run 2>>"$work/times" >"$work/air"
    start=$(date +%s%N)
    cat "$work/air" >"$work/copy"
    end=$(date +%s%N)
    echo "cat $((end - start))" >>"$work/times"
done
size=$(wc -c <"$work/air")
awk -v words=$((size / 4)) '
    function row(name, ns) { printf "| `%s` | %.1f million |\n", name, words * 1000 / ns }
    $1 == "cat" { if (!cat || $2 < cat) cat = $2 }
    $1 == 10000 { if (!sent || $3 < sent) sent = $3 }
    END {
        print "| | words a second |"
        print "|---|---|"
        row("transmit", sent)
        row("cat", cat)
    }
' "$work/times"
