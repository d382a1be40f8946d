#!/bin/sh
# Nanoseconds per event of `doors play` of events that copy and close a descriptor of a door with unref, beside 60 descriptors of it in
# 60 other processes and beside 15000 there. Each is the time that 40000 such events more take, so neither the program's start nor the
# making of the descriptors is in it; the runs take turns, and the least time of each counts. Run by hand on a machine that does
# nothing else, after `rt run` built the program in crates/doors; wants GNU date.
#
# usage: bench/references.sh [PROGRAM] [RUNS]
set -eu
top=$(cd "$(dirname "$0")/.." && pwd)
program=${1:-$top/crates/doors/out/doors}
runs=${2:-5}
folder=$(mktemp -d)
trap 'rm -r "$folder"' EXIT

# A script of 61 processes: 60 open the door so many times each, and then the first copies and closes its descriptor so many times.
script() {
    printf '%s\n' 'doors script 1' 'process first' 'thread t' 'create d p 0 unref' 'attach $d door' 'await ready' "repeat $2" 'dup e $d' 'close $e' end
    printf '%s\n' end 'proc p' 'return ""' end
    process=1
    while [ "$process" -le 60 ]; do
        printf '%s\n' "process p$process" 'thread t'"$process" 'await door' "repeat $1" 'open x door' end
        [ "$process" -lt 60 ] || printf '%s\n' 'create r p 0' 'attach $r ready'
        printf '%s\n' serve end
        [ "$process" -lt 60 ] || printf '%s\n' 'proc p' 'return ""' end
        process=$((process + 1))
    done
}

# The nanoseconds of one run.
nanoseconds() {
    begun=$(date +%s%N)
    "$program" play <"$folder/$1.script" >"$folder/$1.trace"
    ended=$(date +%s%N)
    echo $((ended - begun))
}

least() { sort -n "$folder/$1.times" | head -n 1; }

for each in 1 250; do
    for times in 1000 21000; do script $each $times >"$folder/$each.$times.script"; done
done
run=0
while [ "$run" -lt "$runs" ]; do
    for name in 1.1000 1.21000 250.1000 250.21000; do nanoseconds $name >>"$folder/$name.times"; done
    run=$((run + 1))
done
echo 'descriptors nanoseconds/event'
few=$((($(least 1.21000) - $(least 1.1000)) / 40000))
many=$((($(least 250.21000) - $(least 250.1000)) / 40000))
echo "60 $few"
echo "15000 $many"
awk -v few="$few" -v many="$many" 'BEGIN { printf "quotient %.2f\n", many / few }'
