#!/bin/sh
# Nanoseconds per event of `doors play` of events beside much that they do not touch, and of the same events beside little of it. Each is the
# time that so many such events more take, so neither the program's start nor what was made before is in it; the runs take turns, and the
# least time of each counts. Run by hand on a machine that does nothing else, after `rt run` built the program in crates/doors; wants GNU date.
#
# usage: bench/touched.sh [PROGRAM] [RUNS]
set -eu
top=$(cd "$(dirname "$0")/.." && pwd)
program=${1:-$top/crates/doors/out/doors}
runs=${2:-5}
folder=$(mktemp -d)
trap 'rm -r "$folder"' EXIT

header() { printf '%s\n' 'doors script 1'; }

# A thread at the end of so many nested calls asks so many times who its client is.
nested() {
    header
    link=$1
    while [ "$link" -ge 1 ]; do
        printf '%s\n' "process p$link" "thread t$link" 'create d p 0' "attach \$d x$link" serve end 'proc p'
        if [ "$link" -eq "$1" ]; then
            printf '%s\n' "repeat $2" cred end
        else
            printf '%s\n' "open n x$((link + 1))" 'call r $n ""'
        fi
        printf '%s\n' 'return ""' end
        link=$((link - 1))
    done
    printf '%s\n' 'process client' 'thread c' 'open n x1' 'call r $n ""' end
}

# A process makes so many doors with unref and closes them; another copies and closes a descriptor so many times.
unreferenced() {
    header
    printf '%s\n' 'process first' 'thread a'
    [ "$1" -eq 0 ] || printf '%s\n' "repeat $1" 'create d p 0 unref' 'close $d' end
    printf '%s\n' 'await never' end 'proc p' 'return ""' end
    printf '%s\n' 'process second' 'thread b' 'create d p 0' "repeat $2" 'dup e $d' 'close $e' end end 'proc p' 'return ""' end
}

# So many notices wait; a thread of another process interrupts so many times.
waiting_notices() {
    header
    printf '%s\n' 'process first' 'thread a' 'create d p 0 unref-multi'
    [ "$1" -eq 0 ] || printf '%s\n' "repeat $1" 'dup e $d' 'close $e' end
    printf '%s\n' 'await never' end 'proc p' 'return ""' end
    printf '%s\n' 'process second' 'thread b' "repeat $2" 'interrupt a' end end
}

# A process makes so many doors; another makes so many and closes each.
doors_of_another() {
    header
    printf '%s\n' 'process first' 'thread a'
    [ "$1" -eq 0 ] || printf '%s\n' "repeat $1" 'create d p 0' 'close $d' end
    printf '%s\n' 'await never' end 'proc p' 'return ""' end
    printf '%s\n' 'process second' 'thread b' "repeat $2" 'create d p 0' 'close $d' end end 'proc p' 'return ""' end
}

# So many threads wait; a client calls a server so many times.
waiting_threads() {
    header
    printf '%s\n' 'process idle'
    thread=0
    while [ "$thread" -lt "$1" ]; do
        printf '%s\n' "thread w$thread" 'await never' end
        thread=$((thread + 1))
    done
    printf '%s\n' 'process s' 'thread s' 'create d e 0' 'attach $d x' serve end 'proc e' 'return $arg' end
    printf '%s\n' 'process c' 'thread c' 'open d x' "repeat $2" 'call r $d "hello"' end end
}

# The nanoseconds of one run; 1 is the status of a run in which threads wait at the end.
nanoseconds() {
    begun=$(date +%s%N)
    "$program" play <"$folder/$1.script" >"$folder/$1.trace" || [ $? -eq 1 ]
    ended=$(date +%s%N)
    echo $((ended - begun))
}

least() { sort -n "$folder/$1.times" | head -n 1; }

# A line of one kind: its name, the function of its scripts, little, much, how often, and how many events each time is.
measure() {
    for beside in "$3" "$4"; do
        for times in 1 "$5"; do "$2" "$beside" "$times" >"$folder/$beside.$times.script"; done
    done
    run=0
    while [ "$run" -lt "$runs" ]; do
        for name in "$3.1" "$3.$5" "$4.1" "$4.$5"; do nanoseconds "$name" >>"$folder/$name.times"; done
        run=$((run + 1))
    done
    events=$((($5 - 1) * $6))
    little=$((($(least "$3.$5") - $(least "$3.1")) / events))
    much=$((($(least "$4.$5") - $(least "$4.1")) / events))
    rm "$folder"/*.times
    awk -v name="$1" -v little="$little" -v much="$much" 'BEGIN { printf "%s %d %d %.2f\n", name, little, much, much / little }'
}

echo 'work nanoseconds/event-beside-little nanoseconds/event-beside-much quotient'
measure cred-at-depth-1-and-63 nested 1 63 50000 1
measure dup-and-close-beside-2000-doors-with-unref unreferenced 0 2000 20000 2
measure interrupts-beside-2000-waiting-notices waiting_notices 0 2000 40000 1
measure creates-beside-30000-doors-of-another doors_of_another 0 30000 15000 2
measure calls-beside-62-waiting-threads waiting_threads 0 62 24000 4
