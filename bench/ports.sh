#!/bin/sh
# Nanoseconds of `doors play` of pipes and of event ports: of 50,000 bytes that go through a pipe, by reads of 1 byte and of 4,096, for an event
# and for a byte; and of 30,000 events that are sent to a port and taken from it, beside 1 event that stays queued there and beside 1,000, for an
# event of the trace, and the quotient. Each is the time that so many such events more take, so neither the program's start nor what was queued
# before is in it; the runs take turns, and the least time of each counts. The trace shows what a read of more than 64 bytes gives by its digest,
# which is in the time. Run by hand on a machine that does nothing else, after `rt run` built the program in crates/doors; wants GNU date.
#
# usage: bench/ports.sh [PROGRAM] [RUNS]
set -eu
top=$(cd "$(dirname "$0")/.." && pwd)
program=${1:-$top/crates/doors/out/doors}
runs=${2:-5}
folder=$(mktemp -d)
trap 'rm -r "$folder"' EXIT

header() { printf '%s\n' 'doors script 1' 'process p' 'thread t'; }

# So often 50,000 bytes go through a pipe, by reads of so many: 848 bytes, and 12 times as many as a pipe holds.
bytes() {
    header
    printf '%s\n' 'pipe r w'
    if [ "$2" -ge 1 ]; then
        printf '%s\n' "repeat $2" 'write $w fill:848' "repeat $(((848 + $1 - 1) / $1))" "read x \$r $1" end
        printf '%s\n' 'repeat 12' 'write $w fill:4096' "repeat $((4096 / $1))" "read x \$r $1" end end end
    fi
    printf '%s\n' end
}

# So many events stay queued; one more is sent, and the oldest is taken, so often.
events() {
    header
    printf '%s\n' 'pcreate q' "repeat $1" 'send $q 1 1' end "repeat $2" 'send $q 2 2' 'get $q' end end
}

# The nanoseconds of one run.
nanoseconds() {
    begun=$(date +%s%N)
    "$program" play <"$folder/$1.script" >"$folder/$1.trace"
    ended=$(date +%s%N)
    echo $((ended - begun))
}

least() { sort -n "$folder/$1.times" | head -n 1; }

# take_times FUNCTION KIND FEW MANY KIND FEW MANY: the times of the runs of scripts of two kinds, whose events are done few times, and many.
take_times() {
    for times in "$3" "$4"; do "$1" "$2" "$times" >"$folder/$2.$times.script"; done
    for times in "$6" "$7"; do "$1" "$5" "$times" >"$folder/$5.$times.script"; done
    run=0
    while [ "$run" -lt "$runs" ]; do
        for name in "$2.$3" "$2.$4" "$5.$6" "$5.$7"; do nanoseconds "$name" >>"$folder/$name.times"; done
        run=$((run + 1))
    done
}

# more KIND FEW MANY: what doing it many times takes beyond doing it few times.
more() { echo $(($(least "$1.$3") - $(least "$1.$2"))); }

# line_of_bytes SIZE TIMES EVENTS: of reads of so many bytes, where 50,000 bytes went through the pipe so often, in so many events each time.
line_of_bytes() {
    awk -v size="$1" -v more="$(more "$1" 0 "$2")" -v times="$2" -v events="$3" 'BEGIN {
        printf "50000-bytes-by-reads-of-%d %d %.2f\n", size, more / (times * events), more / (times * 50000)
    }'
}

# 50,000 bytes are 13 writes, and as many reads as there are bytes, or 13.
echo 'work nanoseconds/event nanoseconds/byte'
take_times bytes 1 0 1 4096 0 400
line_of_bytes 1 1 50013
line_of_bytes 4096 400 26
rm "$folder"/*

echo 'work nanoseconds/event-beside-1 nanoseconds/event-beside-1000 quotient'
take_times events 1 1 30000 1000 1 30000
awk -v one="$(more 1 1 30000)" -v many="$(more 1000 1 30000)" 'BEGIN {
    events = 2 * (30000 - 1)
    printf "30000-sends-and-gets %d %d %.2f\n", one / events, many / events, many / one
}'
