#!/bin/sh
# Times the proved `TwinGroup` beside the proved `Group` over the same bits, and then `trial` and `twice` of the built program over the
# transmission of 65,536 pages of one cell. It needs rt and Python 3.
#
# The proved crates are copied into a workspace of their own, with a program over the two groups, and are proved and built there.
set -eu
. "$(dirname -- "$0")/../workspace.sh"

workspace repeats
mkdir -p "$work/crates/measure/src"
echo "measure: repeats $(sed -n 's/^repeats://p' "$top/crates.txt") anyhow" >>"$work/crates.txt"
cat >"$work/crates/measure/src/main.rt" <<'RT'
//! Times `Group` and `TwinGroup` over the same bits.
#![tactic(auto)]

use codeword::Capcode;
use receiver::group::Group;
use repeats::TwinGroup;
use std::alloc::{AllocError, Global};
use std::time::Instant;
use wires::steps::{Steps, Work};

/// The next number of a linear generator.
fn drawn(state: u64) -> u64 {
    state.wrapping_mul(6_364_136_223_846_793_005).wrapping_add(1_442_695_040_888_963_407)
}

/// Words of each pass: two stretches of batches, each with zeros behind it.
const WORDS: u32 = 65_536;

/// Words of one stretch and its zeros, and where the zeros begin.
const STRETCH: u32 = 32_768;
const ZEROS: u32 = 30_600;

const SYNC: u32 = 0x7CD2_15D8;
const IDLE: u32 = 0x7A89_C197;

/// The word at this place of two stretches of idle batches.
fn idle_at(k: u32) -> u32 {
    let place = k % STRETCH;
    if place >= ZEROS {
        0
    } else if place % 17 == 0 {
        SYNC
    } else {
        IDLE
    }
}

/// The bytes of a pass: idle batches, or random bits.
fn bytes(alloc: Global, is_idle: bool) -> Result<Vec<u8>, AllocError> {
    let mut bytes = Vec::new(alloc);
    let mut state = 7u64;
    for k in 0..WORDS {
        state = drawn(state);
        let word = if is_idle { idle_at(k) } else { (state >> 32) as u32 };
        bytes.extend_from_slice(&word.to_be_bytes())?;
    }
    Ok(bytes)
}

/// How many pages the group hears in the bits of these bytes.
fn heard_once(group: &mut Group, bytes: &[u8]) -> u32 {
    let mut steps = Steps::<Work>::new();
    let mut pages = 0u32;
    for byte in bytes {
        for k in 0..8u32 {
            if group.feed((*byte >> (7 - k)) & 1 == 1, &mut steps).is_some() {
                pages = pages.wrapping_add(1);
            }
        }
    }
    pages
}

/// How many pages the group hears in them where each transmission comes twice.
fn heard_twice(group: &mut TwinGroup, bytes: &[u8]) -> u32 {
    let mut steps = Steps::<Work>::new();
    let mut pages = 0u32;
    for byte in bytes {
        for k in 0..8u32 {
            if group.feed((*byte >> (7 - k)) & 1 == 1, &mut steps).is_some() {
                pages = pages.wrapping_add(1);
            }
        }
    }
    pages
}

fn main(rt: HostRuntime) -> anyhow::Result<()> {
    let Some(capcode) = Capcode::of(8) else {
        return Ok(());
    };
    for is_idle in [false, true] {
        let bytes = bytes(rt.alloc(), is_idle)?;
        let name = if is_idle { "idle" } else { "random" };
        let bits = bytes.len().wrapping_mul(8);
        for _ in 0..9u8 {
            let Ok(mut group) = Group::new(rt.alloc(), &[(1u32, capcode)]) else {
                println!(rt; "no memory")?;
                return Ok(());
            };
            let Ok(mut twin) = TwinGroup::new(rt.alloc(), &[(1u32, capcode)]) else {
                println!(rt; "no memory")?;
                return Ok(());
            };
            let start = Instant::now(&rt)?;
            let pages = heard_once(&mut group, &bytes);
            let took = start.elapsed(&rt)?;
            println!(rt; "once {} {} {} {}", name, bits, pages, took.as_nanos())?;
            let start = Instant::now(&rt)?;
            let pages = heard_twice(&mut twin, &bytes);
            let took = start.elapsed(&rt)?;
            println!(rt; "twice {} {} {} {}", name, bits, pages, took.as_nanos())?;
        }
    }
    Ok(())
}
RT
"$top/pocsag" one 8 <"$top/examples/abc.tap" >/dev/null
cd "$work/crates/measure"
# The first run proves and builds.
for turn in 1 2 3; do
    rt run 2>"$work/log" || { cat "$work/log" >&2; exit 1; }
done >"$work/times.txt"
awk '
    { key = $1 " " $2; ns = $5 / $3; if (!(key in least) || ns < least[key]) least[key] = ns }
    END {
        print "| what | `Group`, or `trial` | `TwinGroup`, or `twice` | ratio | memory of both |"
        print "|---|---|---|---|---|"
        count = split("random idle", names, " ")
        for (k = 1; k <= count; k++) {
            once = least["once " names[k]]
            twice = least["twice " names[k]]
            printf "| a bit, %s | %.2f ns | %.2f ns | %.2f | |\n", names[k], once, twice, twice / once
        }
    }
' "$work/times.txt"
python3 "$here/largest.py" "$top/crates/page_tool/out/page_tool" "$work"
