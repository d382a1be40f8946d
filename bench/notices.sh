#!/bin/sh
# Nanoseconds per event and memory of `doors play` of one door with many notices that all wait before the first is accepted, for
# 400 of them and for 4000. The runs of both take turns, and the least time of each counts, the program's start included; the
# last line is the quotient of both times per event. Run by hand on a machine that does nothing else, after `rt run` built the
# program in crates/doors; wants GNU time and date.
#
# usage: bench/notices.sh [PROGRAM] [RUNS]
set -eu
top=$(cd "$(dirname "$0")/.." && pwd)
program=${1:-$top/crates/doors/out/doors}
runs=${2:-5}
folder=$(mktemp -d)
trap 'rm -r "$folder"' EXIT

# A script of one thread, which lets go of a copy of a descriptor so many times, and then serves the notices.
script() {
    printf '%s\n' 'doors script 1' 'process p' 'thread t' 'create d p 0 unref-multi' "repeat $1" 'dup e $d' 'close $e' end
    printf '%s\n' serve end 'proc p' 'return ""' end
}

# play NOTICES WRAPPER..
play() {
    word=$1
    shift
    "$@" "$program" play <"$folder/$word.script" >"$folder/$word.trace"
}

# The nanoseconds of one run.
nanoseconds() {
    begun=$(date +%s%N)
    play "$1" env
    ended=$(date +%s%N)
    echo $((ended - begun))
}

events() { tail -n 1 "$folder/$1.trace" | cut -d ' ' -f 3; }

least() { sort -n "$folder/$1.times" | head -n 1; }

# Prints a line of the times that were taken.
line() {
    play "$1" /usr/bin/time -q -f %M -o "$folder/memory"
    [ "$(grep -c ' unref$' "$folder/$1.trace")" -eq "$1" ]
    echo "$1 $(events "$1") $(least "$1") $(($(least "$1") / $(events "$1"))) $(cat "$folder/memory")"
}

for notices in 400 4000; do script $notices >"$folder/$notices.script"; done
run=0
while [ "$run" -lt "$runs" ]; do
    for notices in 400 4000; do nanoseconds $notices >>"$folder/$notices.times"; done
    run=$((run + 1))
done
echo 'notices events nanoseconds nanoseconds/event KiB'
line 400
line 4000
awk -v few="$(least 400)" -v of_few="$(events 400)" -v many="$(least 4000)" -v of_many="$(events 4000)" \
    'BEGIN { printf "quotient %.2f\n", (many / of_many) / (few / of_few) }'
