#!/bin/sh
# What a door_call(3C) of C programs under c/out/doord takes. Run by hand on a machine that does nothing else, after `make -C c`; wants a C
# compiler. The output is three tables.
#
# 1. A round trip of a call with 80 bytes each way, of a client and a server, beside a ping-pong of the same bytes of two processes over a
#    Unix socket (SOCK_STREAM), in microseconds: 21 pairs, which take turns, 2,000 round trips each; the medians, and the median of the
#    pairs' ratios. First all on one processor, then wherever the system likes.
# 2. With 1, 4 and 16 clients at once, each a process, and 16 server threads: calls a second, the sum over clients, and events a second, of
#    which a call makes four.
# 3. The memory of doord (VmRSS) after about 1,000, 50,000 and 100,000 events.
#
# usage: bench/c.sh [BYTES] [PAIRS] [PROCESSOR]
set -eu
top=$(cd "$(dirname "$0")/.." && pwd)
bytes=${1:-80}
pairs=${2:-21}
processor=${3:-0}
out=$top/c/out
work=$(mktemp -d)
trap 'rm -r "$work"' EXIT
trap 'exit 1' HUP INT TERM
mkdir "$work/bin" "$work/d"
make -s -C "$top/c"
for name in bench_pingpong bench_server bench_client bench_pin; do
    ${CC:-cc} -std=gnu11 -O2 -I"$top/c/include" -o "$work/bin/$name" "$top/c/tests/$name.c" -L"$out" -ldoor -pthread
done
PATH=$work/bin:$out:$PATH
export PATH

# bench SCRIPT [WORD ..]: doord over the script, in an empty folder; the words are options, and before `--` what runs doord.
bench() {
    script=$1
    shift
    rm -rf "$work/d"
    mkdir "$work/d"
    (cd "$work/d" && exec "$@" -o "$work/history" -- sh -c "$script")
}

# the median of the column
median() { sort -n | awk '{ n[NR] = $1 } END { print NR % 2 ? n[(NR + 1) / 2] : (n[NR / 2] + n[NR / 2 + 1]) / 2 }'; }

round_trips="bench_server d & server=\$!; doorwait d; i=0; while [ \$i -lt $pairs ]; do i=\$((i + 1))
    echo \"\$(env -u LD_PRELOAD bench_pingpong $bytes 2000) \$(bench_client d $bytes 2000)\"; done; kill \$server"

# row NAME: of the pairs in $work/pairs
row() {
    socket=$(awk '{ print $1 }' "$work/pairs" | median)
    door=$(awk '{ print $2 }' "$work/pairs" | median)
    ratio=$(awk '{ printf "%.2f\n", $2 / $1 }' "$work/pairs" | median)
    echo "| $1 | $bytes | $socket | $door | $ratio |"
}

echo "| Processors | Bytes | Socket, µs | Door, µs | Ratio |"
echo "|---|---:|---:|---:|---:|"
bench "$round_trips" bench_pin "$processor" doord >"$work/pairs"
row one
bench "$round_trips" doord >"$work/pairs"
row all

echo
echo "| Clients | Calls/second | Events/second |"
echo "|---:|---:|---:|"
for clients in 1 4 16; do
    bench ": >ready; bench_server d & server=\$!; doorwait d; i=0
        while [ \$i -lt $clients ]; do bench_client d $bytes 5000 go 2>>ready & clients=\"\$clients \$!\"; i=\$((i + 1)); done
        until [ \"\$(wc -l <ready)\" -eq $clients ]; do sleep 0.05; done; touch go; wait \$clients; kill \$server" \
        doord -b bench_server=1,16,0 -b '*=1,0,0' >"$work/rates"
    awk -v clients="$clients" '{ rate += 1e6 / $1 } END { printf "| %d | %d | %d |\n", clients, rate, 4 * rate }' "$work/rates"
done

echo
echo "| Events | doord, KiB |"
echo "|---:|---:|"
bench 'bench_server d & server=$!; doorwait d
    for calls in 237 11667 11905; do
        bench_client d '"$bytes"' $calls >answer
        awk -v events="$(grep -c "^[0-9]" '"$work/history"')" "/^VmRSS/ { print \"| \" events \" | \" \$2 \" |\" }" /proc/$PPID/status
    done
    kill $server' doord
