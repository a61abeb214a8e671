#!/bin/sh
# Hostile connections beside honest ones: random bytes, nothing, a million characters, half a block and a reset, bytes one at a time.
# It wants rt and Python 3. Words: the seed (1 where there is none), how many connections (10000), the program (the built one), and
# the most seconds (1500).
set -eu
. "$(dirname -- "$0")/../workspace.sh"

program=${3:-$top/crates/page_tool/out/page_tool}
[ $# -ge 3 ] || "$top/pocsag" one 8 <"$top/examples/abc.tap" >/dev/null
python3 "$here/hostile.py" "$program" "$work" "${1:-1}" "${2:-10000}" "${4:-1500}"
