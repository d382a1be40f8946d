#!/bin/sh
# Calls per second and context switches of `doors run`, beside those of `doors play` of the same script. The runs of both take
# turns, and the least time of each counts, the program's start included; the switches (GNU time's %w, where a thread waited, and
# %c, where the system took the processor from it) are those of one run more. Run by hand on a machine that does nothing else,
# after `rt run` built the program in crates/doors; wants GNU time and date.
#
# The first two scripts have 16000 calls of two servers, by four clients and by one. The third has 32 servers and as many clients,
# each of which calls its own 500 times. The last is a ring of 64: each thread waits for the path of the one before it, takes it
# away and attaches its own door, 250 times; a call is here such a pass.
#
# The last line is what the system itself takes for a round trip of two threads that wake each other by a futex in turn, where
# there is a gcc.
#
# usage: bench/run.sh [PROGRAM] [RUNS]
set -eu
top=$(cd "$(dirname "$0")/.." && pwd)
program=${1:-$top/crates/doors/out/doors}
runs=${2:-5}
folder=$(mktemp -d)
trap 'rm -r "$folder"' EXIT

# clients N CALLS: two servers of one door, and so many clients, each of which calls so many times.
clients() {
    printf '%s\n' 'doors script 1' 'process s' 'thread s1' 'create d e 0' 'attach $d x' serve end 'thread s2' serve end
    printf '%s\n' 'proc e' 'return $arg' end 'process c'
    client=0
    while [ "$client" -lt "$1" ]; do
        printf '%s\n' "thread c$client" 'await x' 'open d x' "repeat $2" 'call r $d "hello"' end end
        client=$((client + 1))
    done
}

# pairs N CALLS: so many servers, and a client of each.
pairs() {
    echo 'doors script 1'
    pair=0
    while [ "$pair" -lt "$1" ]; do
        printf '%s\n' "process p$pair" "thread s$pair" 'create d e 0' "attach \$d x$pair" serve end 'proc e' 'return $arg' end
        printf '%s\n' "thread c$pair" "await x$pair" "open d x$pair" "repeat $2" 'call r $d "hello"' end end
        pair=$((pair + 1))
    done
}

# ring N ROUNDS: so many threads that hand on a path in turn, so many times around.
ring() {
    echo 'doors script 1'
    place=0
    before=$(($1 - 1))
    while [ "$place" -lt "$1" ]; do
        printf '%s\n' "process p$place" "thread t$place" 'create d e 0'
        [ "$place" -gt 0 ] || echo 'attach $d x0'
        printf '%s\n' "repeat $2" "await x$before" "detach x$before" "attach \$d x$place" end end 'proc e' end
        before=$place
        place=$((place + 1))
    done
}

# once WORD WRAPPER..: one run of the program.
once() {
    word=$1
    shift
    "$@" "$program" "$word" <"$folder/script" >"$folder/trace"
}

# The microseconds of one run.
microseconds() {
    begun=$(date +%s%N)
    once "$1" env
    ended=$(date +%s%N)
    echo $(((ended - begun) / 1000))
}

# line NAME CALLS WORD: of the times that were taken.
line() {
    once "$3" /usr/bin/time -q -f '%w %c' -o "$folder/switches"
    least=$(sort -n "$folder/$3" | head -n 1)
    events=$(grep -c '^[0-9]' "$folder/trace")
    echo "$1 $2 $3 $events $least $(($2 * 1000000 / least)) $(cat "$folder/switches")"
}

# measure NAME CALLS: measures the script, which makes so many calls in all, and prints two lines.
measure() {
    rm -f "$folder/run" "$folder/play"
    run=0
    while [ "$run" -lt "$runs" ]; do
        microseconds run >>"$folder/run"
        microseconds play >>"$folder/play"
        run=$((run + 1))
    done
    line "$1" "$2" run
    line "$1" "$2" play
}

echo 'script calls by events microseconds calls/second waits preemptions'
clients 4 4000 >"$folder/script"
measure 4_clients_of_2_servers 16000
clients 1 16000 >"$folder/script"
measure 1_client_of_2_servers 16000
pairs 32 500 >"$folder/script"
measure 32_clients_of_32_servers 16000
ring 64 250 >"$folder/script"
measure ring_of_64 16000

command -v gcc >/dev/null || exit 0
cat >"$folder/futex.c" <<'END'
#include <linux/futex.h>
#include <pthread.h>
#include <stdatomic.h>
#include <stdio.h>
#include <sys/syscall.h>
#include <time.h>
#include <unistd.h>

enum { TRIPS = 100000 };
static _Atomic int turn;

static void take(int mine) {
    while (atomic_load(&turn) != mine) syscall(SYS_futex, &turn, FUTEX_WAIT_PRIVATE, !mine, NULL, NULL, 0);
}

static void give(int other) {
    atomic_store(&turn, other);
    syscall(SYS_futex, &turn, FUTEX_WAKE_PRIVATE, 1, NULL, NULL, 0);
}

static void *answers(void *none) {
    for (int i = 0; i < TRIPS; i++) take(1), give(0);
    return none;
}

int main(void) {
    pthread_t thread;
    struct timespec begun, ended;
    if (pthread_create(&thread, NULL, answers, NULL)) return 1;
    clock_gettime(CLOCK_MONOTONIC, &begun);
    for (int i = 0; i < TRIPS; i++) give(1), take(0);
    clock_gettime(CLOCK_MONOTONIC, &ended);
    pthread_join(thread, NULL);
    printf("%.0f\n", ((ended.tv_sec - begun.tv_sec) * 1e9 + (ended.tv_nsec - begun.tv_nsec)) / TRIPS);
    return 0;
}
END
gcc -O2 -pthread -o "$folder/futex" "$folder/futex.c" || exit 0
run=0
while [ "$run" -lt "$runs" ]; do
    /usr/bin/time -q -f '%w %c' -o "$folder/switches" "$folder/futex" | tr '\n' ' '
    cat "$folder/switches"
    run=$((run + 1))
done >"$folder/trips"
echo 'futex_round_trips nanoseconds_each waits preemptions'
echo "100000 $(sort -n "$folder/trips" | head -n 1)"
