#!/bin/sh
# Nanoseconds per event of `doors play` of events that touch one pipe, beside no other association and beside 1,000 of other pipes, which wait at ten
# ports of ten processes and never fire: writes and reads, and writes of which a port is told, each with its `associate`, its `get` and its `read`; of
# associations that are made and dissociated; and of descriptors that are made and closed. Each is the time that so many such events more take, so neither
# the program's start nor what was made before is in it; the runs take turns, and the least time of each counts. Run by hand on a machine that does nothing
# else, after `rt run` built the program in crates/doors; wants GNU date.
#
# usage: bench/associations.sh [PROGRAM] [RUNS]
set -eu
top=$(cd "$(dirname "$0")/.." && pwd)
program=${1:-$top/crates/doors/out/doors}
runs=${2:-5}
folder=$(mktemp -d)
trap 'rm -r "$folder"' EXIT

# So many associations, a hundred of each process, of the reading ends of as many pipes.
others() {
    echo 'doors script 1'
    made=0
    while [ "$made" -lt "$1" ]; do
        printf '%s\n' "process other$made" "thread other$made" 'pcreate q' 'repeat 100' 'pipe r w' 'associate $q $r in 1' end 'await never' end
        made=$((made + 100))
    done
    printf '%s\n' 'process p' 'thread t' 'pipe r w' 'pcreate q'
}

# So many bytes are written and read, one at a time.
writes() {
    others "$1"
    printf '%s\n' "repeat $2" 'write $w "a"' 'read x $r 1' end end
}

# The same, and a port is told of each.
told_writes() {
    others "$1"
    printf '%s\n' "repeat $2" 'associate $q $r in 1' 'write $w "a"' 'get $q' 'read x $r 1' end end
}

# So many descriptors are made and closed, by which nothing watches.
closed() {
    others "$1"
    printf '%s\n' "repeat $2" 'dup e $r' 'close $e' end end
}

# So many associations are made and dissociated.
dissociated() {
    others "$1"
    printf '%s\n' "repeat $2" 'associate $q $r in 1' 'dissociate $q $r' end end
}

# The nanoseconds of one run; 1 is the status of a run in which threads wait at the end.
nanoseconds() {
    begun=$(date +%s%N)
    "$program" play <"$folder/$1.script" >"$folder/$1.trace" || [ $? -eq 1 ]
    ended=$(date +%s%N)
    echo $((ended - begun))
}

least() { sort -n "$folder/$1.times" | head -n 1; }

# A line of one kind: its name, the function of its scripts, how often, and how many events each time is.
measure() {
    for beside in 0 1000; do
        for times in 1 "$3"; do "$2" "$beside" "$times" >"$folder/$beside.$times.script"; done
    done
    run=0
    while [ "$run" -lt "$runs" ]; do
        for name in 0.1 "0.$3" 1000.1 "1000.$3"; do nanoseconds "$name" >>"$folder/$name.times"; done
        run=$((run + 1))
    done
    events=$((($3 - 1) * $4))
    none=$((($(least "0.$3") - $(least 0.1)) / events))
    many=$((($(least "1000.$3") - $(least 1000.1)) / events))
    rm "$folder"/*.times
    awk -v name="$1" -v none="$none" -v many="$many" 'BEGIN { printf "%s %d %d %.2f\n", name, none, many, many / none }'
}

echo 'work nanoseconds/event-beside-none nanoseconds/event-beside-1000 quotient'
measure writes-and-reads writes 10000 2
measure writes-that-a-port-is-told told_writes 10000 4
measure associations-made-and-dissociated dissociated 10000 2
measure descriptors-made-and-closed closed 10000 2
