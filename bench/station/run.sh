#!/bin/sh
# Times the station of the built program over loopback: long sessions, replies in turn, and short sessions. It wants rt and Python 3.
set -eu
. "$(dirname -- "$0")/../workspace.sh"

"$top/pocsag" one 8 <"$top/examples/abc.tap" >/dev/null
python3 "$here/client.py" "$top/crates/page_tool/out/page_tool" "$work"
