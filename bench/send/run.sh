#!/bin/sh
# Times `send` of the built program, which dials a station over loopback: 1,000 pages of 1,000 characters beside 1,000 of 400. It wants rt
# and Python 3.
set -eu
. "$(dirname -- "$0")/../workspace.sh"

"$top/pocsag" one 8 <"$top/examples/abc.tap" >/dev/null
python3 "$here/send.py" "$top/crates/page_tool/out/page_tool" "$work"
