#!/bin/sh
# Calls per second of 1, 2, 4 and 8 threads of a host that call one door, which another one serves, each by a seat (the program of bench/seats),
# beside those of a script of as many clients and one server by `doors run`. Both make 4,800 calls in a run of the program, and the least time of
# the runs counts, the program's start included. Run by hand on a machine that does nothing else, after `rt run` built the program in
# crates/doors; wants GNU date. Without a SEAT_BENCH it is proved and built first, as the crate seat_bench of a copy of the repository.
#
# usage: bench/seats.sh [RUNS [DOORS [SEAT_BENCH]]]
set -eu
top=$(cd "$(dirname "$0")/.." && pwd)
runs=${1:-20}
doors=${2:-$top/crates/doors/out/doors}
seats=${3:-}
calls=4800
folder=$(mktemp -d)
trap 'rm -rf "$folder"' EXIT

# build: bench/seats has the crate's files, each with .txt after its name, since the gate takes every .rt and .antt file for one of a listed crate.
build() {
    copy=$folder/repository
    mkdir "$copy"
    (cd "$top" && git ls-files -z --cached crates crates.txt HANDLES | xargs -0 tar -cf -) | tar -xf - -C "$copy"
    (cd "$top/bench/seats" && find . -name '*.txt') | while read -r file; do
        mkdir -p "$copy/crates/seat_bench/$(dirname "$file")"
        cp "$top/bench/seats/$file" "$copy/crates/seat_bench/${file%.txt}"
    done
    echo 'seat_bench: dk_base spec_kernel kernel_core seat_api' >>"$copy/crates.txt"
    (cd "$copy" && git init -q && cd crates/seat_bench && rt run -- 1 >"$folder/built")
    seats=$copy/crates/seat_bench/out/seat_bench
}

[ -n "$seats" ] || build

# clients N: a server of one door, and so many clients, which make the calls.
clients() {
    printf '%s\n' 'doors script 1' 'process s' 'thread s1' 'create d e 0' 'attach $d x' serve end 'proc e' 'return ""' end 'process c'
    client=0
    while [ "$client" -lt "$1" ]; do
        printf '%s\n' "thread c$client" 'await x' 'open d x' "repeat $((calls / $1))" 'call r $d "q"' end end
        client=$((client + 1))
    done
}

# The microseconds of one run.
microseconds() {
    begun=$(date +%s%N)
    "$@" <"$folder/script" >"$folder/out"
    ended=$(date +%s%N)
    echo $(((ended - begun) / 1000))
}

least() { sort -n "$folder/$1.times" | head -n 1; }

echo 'threads calls seats-microseconds seats-calls/second run-microseconds run-calls/second'
for threads in 1 2 4 8; do
    clients "$threads" >"$folder/script"
    run=0
    while [ "$run" -lt "$runs" ]; do
        microseconds "$seats" "$threads" >>"$folder/seats.times"
        [ "$(cat "$folder/out")" = "$calls" ]
        microseconds "$doors" run >>"$folder/run.times"
        run=$((run + 1))
    done
    awk -v threads="$threads" -v calls="$calls" -v seats="$(least seats)" -v run="$(least run)" 'BEGIN {
        printf "%d %d %d %d %d %d\n", threads, calls, seats, calls * 1000000 / seats, run, calls * 1000000 / run
    }'
    rm "$folder"/*.times
done
