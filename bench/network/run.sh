#!/bin/sh
# Compares the built program with a plain model of the network in Python: random sessions in memory and over loopback, noises, files of
# bits, and calls of the client. It wants rt and Python 3. Words: how many rounds (100 where there is none), and the seed of the first.
set -eu
. "$(dirname -- "$0")/../workspace.sh"

"$top/pocsag" one 8 <"$top/examples/abc.tap" >/dev/null
python3 "$here/compare.py" "$top/crates/page_tool/out/page_tool" "$work" "${2:-1}" "${1:-100}"
