#!/bin/sh
# Events per second and memory of `doors play`: one server, and one client or more that call it again and again, output to a
# file. The last two lines have the same calls in all, of one client and of 62. Run by hand, after `rt run` built the program in crates/doors; wants GNU time and date.
#
# usage: bench/play.sh [PROGRAM] [RUNS]
set -eu
top=$(cd "$(dirname "$0")/.." && pwd)
program=${1:-$top/crates/doors/out/doors}
runs=${2:-5}
folder=$(mktemp -d)
trap 'rm -r "$folder"' EXIT

# A script of a server and so many clients, each of which calls so many times.
script() {
    printf '%s\n' 'doors script 1' 'process s' 'thread s' 'create d e 0' 'attach $d x' serve end 'proc e' 'return $arg' end 'process c'
    client=0
    while [ "$client" -lt "$1" ]; do
        printf '%s\n' "thread c$client" 'await x' 'open d x' "repeat $2" 'call r $d "hello"' end end
        client=$((client + 1))
    done
}

# Plays the script; 4 is the status of a run that its budget ends.
play() {
    "$@" "$program" play <"$folder/script" >"$folder/trace" || [ $? -eq 4 ]
}

# The least microseconds of the runs, the program's start included.
microseconds() {
    run=0
    while [ "$run" -lt "$runs" ]; do
        begun=$(date +%s%N)
        play env
        ended=$(date +%s%N)
        echo $(((ended - begun) / 1000))
        run=$((run + 1))
    done | sort -n | head -n 1
}

# Measures so many clients, each with so many calls, and prints a line.
measure() {
    script "$1" "$2" >"$folder/script"
    least=$(microseconds)
    play /usr/bin/time -q -f %M -o "$folder/memory"
    events=$(tail -n 1 "$folder/trace" | cut -d ' ' -f 3)
    echo "$1 $2 $events $least $((events * 1000000 / least)) $(cat "$folder/memory")"
}

echo 'clients calls events microseconds events/second KiB'
for clients in 1 4; do
    for calls in 1 1000 4000 16000; do
        measure "$clients" "$calls"
    done
done
measure 1 24000
measure 62 387
