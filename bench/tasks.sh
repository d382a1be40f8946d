#!/bin/sh
# Microseconds of tasks by `doors run`, beside those of `doors play` of the same script: 8,000 digests of 8,192 bytes, 2,000 by each of four threads, and
# all of them by one. The runs of both take turns, and the least time of each counts, the program's start included; the last column is the time of `play`
# over that of `run`. Run by hand on a machine with four processors that does nothing else, after `rt run` built the program in crates/doors; wants GNU date.
#
# usage: bench/tasks.sh [PROGRAM] [RUNS]
set -eu
top=$(cd "$(dirname "$0")/.." && pwd)
program=${1:-$top/crates/doors/out/doors}
runs=${2:-5}
folder=$(mktemp -d)
trap 'rm -r "$folder"' EXIT

# workers N TIMES: so many threads, each of which computes so many digests.
workers() {
    printf '%s\n' 'doors script 1' 'process p'
    worker=0
    while [ "$worker" -lt "$1" ]; do
        printf '%s\n' "thread w$worker" "repeat $2" 'work v digest fill:8192' end end
        worker=$((worker + 1))
    done
}

# The microseconds of one run.
microseconds() {
    begun=$(date +%s%N)
    "$program" "$1" <"$folder/script" >"$folder/$1.trace"
    ended=$(date +%s%N)
    echo $(((ended - begun) / 1000))
}

least() { sort -n "$folder/$1.times" | head -n 1; }

# A line of so many threads, each of which computes so many digests.
measure() {
    workers "$1" "$2" >"$folder/script"
    run=0
    while [ "$run" -lt "$runs" ]; do
        for word in run play; do microseconds "$word" >>"$folder/$word.times"; done
        run=$((run + 1))
    done
    events=$(grep -c '^[0-9]' "$folder/play.trace")
    awk -v threads="$1" -v digests="$2" -v events="$events" -v run="$(least run)" -v play="$(least play)" 'BEGIN {
        printf "%d %d %d %d %d %.2f\n", threads, digests, events, run, play, play / run
    }'
    rm "$folder"/*.times
}

echo 'threads digests-of-each events run-microseconds play-microseconds quotient'
measure 4 2000
measure 1 8000
