#!/bin/sh
# Makes sound of a file of samples, and has multimon-ng hear it, the decoder that Debian packages.
#
#     examples/hear_line.sh LINE
#
# A LINE has eight samples for each bit, so at 1,200 bits a second it has 9,600 samples a second. Each is made a 16-bit number: a 1 is the
# lower frequency of a transmitter, so it is the negative one. sox brings this to the 22,050 Hz that multimon-ng takes. It prints a line
# for each page, as digits where the function is 0 and as letters where it is 1 or 3. It wants Python 3, sox and multimon-ng.
set -eu
python3 -c '
import sys

WORDS = {bit: value.to_bytes(2, "little", signed=True) for bit, value in ((0, 12_000), (1, -12_000))}
SOUNDS = [b"".join(WORDS[byte >> place & 1] for place in range(7, -1, -1)) for byte in range(256)]
with open(sys.argv[1], "rb") as line:
    while piece := line.read(4096):
        sys.stdout.buffer.write(b"".join(SOUNDS[byte] for byte in piece))
' "$1" |
    sox -D -t raw -r 9600 -e signed-integer -b 16 -c 1 - -t raw -r 22050 -e signed-integer -b 16 -c 1 - |
    multimon-ng -q -t raw -a POCSAG1200 -
