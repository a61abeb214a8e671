#!/usr/bin/env bash
# Sends one page by SNPP, over bash's own /dev/tcp, and prints what the station says.
#
#     snpp_page.sh HOST:PORT ID TEXT
#
# Each command is said when the reply to the one before was heard. The status is 1 at the first reply that refuses.
set -eu
address=$1 id=$2 text=$3
exec 3<>"/dev/tcp/${address%:*}/${address##*:}"

heard() {
    IFS= read -r reply <&3
    printf '%s\n' "${reply%$'\r'}"
    [[ $reply == 2* ]]
}

heard
for line in "PAGE $id" "MESS $text" SEND QUIT; do
    printf '%s\r\n' "$line" >&3
    heard
done
