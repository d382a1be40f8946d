#!/bin/sh
# Microseconds and memory of `doors check`, beside those of `doors play` of the same script, which made the trace. The runs of
# both take turns, and the least time of each counts. Run by hand, after `rt run` built the program in crates/doors; wants GNU
# time and date.
#
# The first line has a client that calls 16000 times. The second has as many events as a run may have, and the longest trace
# of so many that calls can make: each call has 64 bytes, the most that a trace shows as a string, each
# of which is written as `\xHH`, and they stand in the `accept` line and in the `collect` line. All names have 16 bytes, the
# cookie has 20 digits, and the results are more than there is room for. So the four events of a call have 194 bytes each in
# the mean. Other commands can make longer lines: a `getn` of 64 events has up to 2,700 bytes.
#
# usage: bench/check.sh [PROGRAM] [RUNS]
set -eu
top=$(cd "$(dirname "$0")/.." && pwd)
program=${1:-$top/crates/doors/out/doors}
runs=${2:-5}
folder=$(mktemp -d)
trap 'rm -r "$folder"' EXIT

# script SERVER CLIENT PROC COOKIE CALLS DATA ROOM: a server, and a client that calls it again and again.
script() {
    printf '%s\n' 'doors script 1' 'process s' "thread $1" "create d $3 $4" 'attach $d x' serve end "proc $3" 'return $arg' end
    printf '%s\n' 'process c' "thread $2" 'await x' 'open d x' "repeat $5" "call r \$d $6 rsize $7" end end
}

# Plays the script; 4 is the status of a run that its budget ends.
play() {
    "$@" "$program" play <"$folder/script" >"$folder/trace" || [ $? -eq 4 ]
}

check() {
    "$@" "$program" check <"$folder/input" >"$folder/verdict"
}

# The microseconds of a command.
microseconds() {
    begun=$(date +%s%N)
    "$@" env
    ended=$(date +%s%N)
    echo $(((ended - begun) / 1000))
}

least() { sort -n "$1" | head -n 1; }

# Measures the script and prints a line.
measure() {
    script "$@" >"$folder/script"
    play /usr/bin/time -q -f %M -o "$folder/play_memory"
    { cat "$folder/script" && echo trace && cat "$folder/trace"; } >"$folder/input"
    check /usr/bin/time -q -f %M -o "$folder/check_memory"
    events=$(tail -n 1 "$folder/trace" | cut -d ' ' -f 3)
    [ "$(cat "$folder/verdict")" = "legal $events" ]
    : >"$folder/play_times"
    : >"$folder/check_times"
    run=0
    while [ "$run" -lt "$runs" ]; do
        microseconds play >>"$folder/play_times"
        microseconds check >>"$folder/check_times"
        run=$((run + 1))
    done
    played=$(least "$folder/play_times")
    checked=$(least "$folder/check_times")
    quotient=$(awk -v checked="$checked" -v played="$played" 'BEGIN { printf "%.2f", checked / played }')
    echo "$events $played $checked $quotient $(($(wc -c <"$folder/input") / 1024)) $(cat "$folder/play_memory") $(cat "$folder/check_memory")"
}

# 64 bytes, each of which is written with four
escapes=$(printf '\\xff%.0s' 1 2 3 4 5 6 7 8)
escapes=$escapes$escapes$escapes$escapes$escapes$escapes$escapes$escapes

echo 'events play_microseconds check_microseconds quotient input_KiB play_KiB check_KiB'
measure s c e 0 16000 '"hello"' 4096
measure server_of_echoes client_of_echoes procedure_echoes 18446744073709551615 100000 "\"$escapes\"" 0
