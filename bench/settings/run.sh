#!/bin/sh
# Times the proved reader of settings files over files of 10 to 10,000 subscribers, and one of as many subscribers and groups as a file
# may have. It needs rt.
#
# The proved crates are copied into a workspace of their own, with a program over the reader, and are proved and built there.
set -eu
. "$(dirname -- "$0")/../workspace.sh"

workspace subscribers
mkdir -p "$work/crates/measure/src"
echo 'measure: subscribers codeword bch31 bits toml anyhow' >>"$work/crates.txt"
cat >"$work/crates/measure/src/main.rt" <<'RT'
//! Times the reading of settings files of 10 to 10,000 subscribers, and of 10,000 with 1,000 groups of 16, and 1,000 look-ups of one id.
#![tactic(auto)]

use std::alloc::{AllocError, Global};
use std::time::Instant;
use subscribers::Settings;

/// The first id of a group: no subscriber has it.
const FIRST_GROUP: u32 = 10_000;

/// 16 numbers from this one on, with commas.
fn sixteen(alloc: Global, first: u16) -> Result<String, AllocError> {
    let mut numbers = format!(in alloc; "{first}")?;
    for k in 1..16u32 {
        let number = format!(in alloc; ", {}", u32::from(first) + k)?;
        numbers.push_str(number.as_str())?;
    }
    Ok(numbers)
}

/// A settings file of so many subscribers, with the ids from 0 on, and so many groups of 16.
fn numbered(alloc: Global, count: u32, groups: u16) -> Result<String, AllocError> {
    let mut file = format!(in alloc; "version = 2\ncells = 64\n")?;
    for id in 0..count {
        let entry = format!(in alloc; "\n[[subscriber]]\nid = \"{id}\"\ncapcode = {id}\nclass = \"alpha\"\n")?;
        file.push_str(entry.as_str())?;
    }
    for k in 0..groups {
        let numbers = sixteen(alloc, k)?;
        let group = format!(in alloc; "\n[[group]]\nid = \"{}\"\ncapcodes = [{numbers}]\nclass = \"alpha\"\n", FIRST_GROUP + u32::from(k))?;
        file.push_str(group.as_str())?;
    }
    Ok(file)
}

fn main(rt: HostRuntime) -> anyhow::Result<()> {
    for (count, groups) in [(10u32, 0u16), (100, 0), (1_000, 0), (10_000, 0), (10_000, 1_000)] {
        let file = numbered(rt.alloc(), count, groups)?;
        for _ in 0..5u8 {
            let start = Instant::now(&rt)?;
            let settings = Settings::read(rt.alloc(), file.as_bytes());
            let took = start.elapsed(&rt)?;
            match settings {
                Ok(settings) => {
                    let start = Instant::now(&rt)?;
                    let mut found = 0u32;
                    for _ in 0..1_000u32 {
                        if settings.find(b"7").is_some() && found < 1_000 {
                            found += 1;
                        }
                    }
                    let looked = start.elapsed(&rt)?;
                    println!(rt; "{} entries, {} groups, {} bytes: read {} us; {} finds {} us", count, groups, file.len(), took.as_micros(), found, looked.as_micros())?;
                }
                Err(_) => println!(rt; "refused")?,
            }
        }
    }
    Ok(())
}
RT
cd "$work/crates/measure"
rt run >"$work/times" 2>"$work/log" || { cat "$work/log" >&2; exit 1; }
# The lines of a file stand together: N entries, N groups, N bytes: read N us; N finds N us.
awk '
    function commas(n) { return n < 1000 ? n "" : commas(int(n / 1000)) "," sprintf("%03d", n % 1000) }
    function row() { if (bytes) printf "| %s | %s | %s | %.3g ms | %.3f ms |\n", commas(entries), commas(groups), commas(bytes), read / 1000, looked / 1000 }
    BEGIN {
        print "| subscribers | groups of 16 | bytes of the file | read | 1,000 look-ups |"
        print "|---|---|---|---|---|"
    }
    $5 != bytes { row(); entries = $1; groups = $3; bytes = $5; read = $8; looked = $12 }
    { if ($8 < read) read = $8; if ($12 < looked) looked = $12 }
    END { row() }
' "$work/times"
