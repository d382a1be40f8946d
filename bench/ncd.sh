#!/bin/sh
# Nanoseconds of `doors play` of a name table with 1,024 records, for an event: of 20,000 lines `get` of 64 keys in turn, which the cache answers but
# for the first of each, and of 20,000 of 1,024 keys in turn, of which it answers none; and the quotient. Each is the time that so many such events
# more take than the filling of the table alone, so neither that nor the program's start is in it; the runs take turns, and the least time of each
# counts. That they were hits and misses is looked up in the trace. Run by hand on a machine that does nothing else, after `rt run` built the program
# in crates/doors; wants GNU date.
#
# usage: bench/ncd.sh [PROGRAM] [RUNS]
set -eu
top=$(cd "$(dirname "$0")/.." && pwd)
program=${1:-$top/crates/doors/out/doors}
runs=${2:-5}
folder=$(mktemp -d)
trap 'rm -r "$folder"' EXIT
times=20000

# A table of 1,024 records, and so many lines `get` of so many keys in turn.
script() {
    awk -v keys="$1" -v times="$2" '
        function get(key) { print "ncd r \"get key" key "\"" }
        BEGIN {
            print "doors script 4\nprocess n\nthread t"
            for (key = 0; key < 1024; key++) print "ncd r \"set key" key " value" key "\""
            rounds = int(times / keys)
            if (rounds > 0) {
                print "repeat " rounds
                for (key = 0; key < keys; key++) get(key)
                print "end"
            }
            for (key = 0; key < times % keys; key++) get(key)
            print "ncd r \"stat\"\nend"
        }'
}

# The nanoseconds of one run.
nanoseconds() {
    begun=$(date +%s%N)
    "$program" play <"$folder/$1.script" >"$folder/$1.trace"
    ended=$(date +%s%N)
    echo $((ended - begun))
}

least() { sort -n "$folder/$1.times" | head -n 1; }

# is_counted KIND HITS MISSES: what the last line of the script was told.
is_counted() {
    grep -q "ncd ok \"hits $2 misses $3\"" "$folder/$1.trace" || { echo "bench/ncd.sh: $1 has other hits and misses" >&2; exit 1; }
}

script 1 0 >"$folder/none.script"
script 64 $times >"$folder/kept.script"
script 1024 $times >"$folder/looked_up.script"
run=0
while [ "$run" -lt "$runs" ]; do
    for name in none kept looked_up; do nanoseconds $name >>"$folder/$name.times"; done
    run=$((run + 1))
done
is_counted none 0 0
is_counted kept $((times - 64)) 64
is_counted looked_up 0 $times
awk -v times=$times -v none="$(least none)" -v kept="$(least kept)" -v looked="$(least looked_up)" 'BEGIN {
    print "gets nanoseconds-of-64-keys nanoseconds-of-1024-keys quotient"
    printf "%d %.0f %.0f %.2f\n", times, (kept - none) / times, (looked - none) / times, (looked - none) / (kept - none)
}'
