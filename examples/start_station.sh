#!/bin/sh
# Runs a station once, with a new file for the air that is named for the time of the start.
#
#     start_station.sh ADDRESS SETTINGS FOLDER
#
# FOLDER is of this station alone. The script waits until there is no such file yet, since a station truncates the one that it is
# given. The variable POCSAG names the program where it isn't on the path. The status is that of the station.
[ $# = 3 ] || { echo "usage: start_station.sh ADDRESS SETTINGS FOLDER" >&2; exit 2; }
air=$3/$(date -u +%Y%m%d-%H%M%S).air
while [ -e "$air" ]; do
    sleep 1
    air=$3/$(date -u +%Y%m%d-%H%M%S).air
done
exec "${POCSAG:-pocsag}" station "$1" "$2" "$air" 1000
