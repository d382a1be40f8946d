#!/bin/sh
# Events per second and memory of `doors load`, from 1,000 to 16,000 calls: no trace is written. The last line says how the time grows
# with the events, from the least load to the greatest, with the start of the process taken off, which is the time of a load of one
# call: 1.00 is the time of the events alone. Run by hand, after `rt run` built the program in crates/doors; wants GNU time and date.
#
# usage: bench/load.sh [PROGRAM] [RUNS]
set -eu
top=$(cd "$(dirname "$0")/.." && pwd)
program=${1:-$top/crates/doors/out/doors}
runs=${2:-9}
folder=$(mktemp -d)
trap 'rm -r "$folder"' EXIT

# The least microseconds of the runs of so many calls, the program's start included.
microseconds() {
    run=0
    while [ "$run" -lt "$runs" ]; do
        begun=$(date +%s%N)
        "$program" load "$1" >"$folder/line"
        ended=$(date +%s%N)
        echo $(((ended - begun) / 1000))
        run=$((run + 1))
    done | sort -n | head -n 1
}

# Measures so many calls, and prints a line.
measure() {
    least=$(microseconds "$1")
    /usr/bin/time -q -f %M -o "$folder/memory" "$program" load "$1" >"$folder/line"
    events=$(cut -d ' ' -f 8 "$folder/line")
    echo "$events $((least - start))" >>"$folder/points"
    echo "$1 $events $least $((events * 1000000 / least)) $(cat "$folder/memory")"
}

start=$(microseconds 1)
echo "start of the process: $start microseconds"
echo 'calls events microseconds events/second KiB'
for calls in 1000 2000 4000 8000 16000; do
    measure "$calls"
done
awk 'NR == 1 { events = $1; time = $2 } END { printf "exponent of growth: %.3f\n", log($2 / time) / log($1 / events) }' "$folder/points"
