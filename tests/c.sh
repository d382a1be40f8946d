#!/bin/sh
# Runs C programs that use doors under c/out/doord, and compares what they write, their statuses and their error lines; the history of each
# run is to be legal, as doorlab judges it, and complete. Each case is run again with the doord that `make -C c sanitized` builds, where that
# is there. The programs stand in c/examples and c/tests.
#
# usage: tests/c.sh [--repeat N] [--plain] [--list] [CASE ..]
#
# A case is a function case_NAME in a file of tests/c, each of which has a subject. What takes long lies in tests/c_long, and is run by
# tests/c_long.sh, which takes the same words. --plain leaves out the sanitized doord.
# DOORLAB names another doorlab than crates/doorlab/out/doorlab; KEEP a folder into which goes what a failed case left.
# The last line is `N passed, N failed`; a case counts once for each doord and each time.

LC_ALL=C
export LC_ALL
top=$(cd "$(dirname "$0")/.." && pwd) || exit 1
cd "$top" || exit 1
out=$top/c/out
: "${DOORLAB:=$top/crates/doorlab/out/doorlab}"
case $DOORLAB in
/*) ;;
*) DOORLAB=$PWD/$DOORLAB ;;
esac
case ${0##*/} in
c_long.sh) folder=tests/c_long longest=1800 ;;
*) folder=tests/c longest=60 ;;
esac
passed=0
failed=0
times=1
plain=
picked=
list() { sed -n 's/^case_\([a-z0-9_]*\)() {$/\1/p' $folder/*.sh; }
while [ $# -gt 0 ]; do
    case $1 in
    --repeat)
        times=$2
        shift
        ;;
    --plain) plain=yes ;;
    --list)
        list
        exit 0
        ;;
    -*)
        echo "usage: $0 [--repeat N] [--plain] [--list] [CASE ..]" >&2
        exit 2
        ;;
    *) picked="$picked $1" ;;
    esac
    shift
done

cc=
for compiler in ${CC-} cc gcc clang; do
    if [ -z "$cc" ] && command -v "$compiler" >/dev/null; then cc=$compiler; fi
done
if [ -z "$cc" ]; then
    echo "no C compiler: tests of C programs are left out"
    echo "0 passed, 0 failed"
    exit 0
fi

work=$(mktemp -d) || exit 1
trap 'rm -rf "$work"' EXIT
trap 'exit 1' HUP INT TERM
mkdir "$work/bin" "$work/t"
bin=$work/bin

# how many files doord and all below it may have open; how large a file may become, in blocks of 512 bytes
files=
blocks=
# where the error stream goes, where that is not $work/err
errors=

# What ends a run that does not end, with status 124, where the system has it.
most=
if command -v timeout >/dev/null; then most="timeout -k 10 $longest"; fi

# building

strict="-std=gnu11 -Wall -Wextra -Wpedantic"

give_up() {
    echo "$1"
    head -n 20 "$2"
    echo "0 passed, 1 failed"
    exit 1
}

build() {
    make -C c >"$work/made" 2>&1 || give_up "make -C c failed:" "$work/made"
    [ -n "$plain" ] || make -C c sanitized >"$work/made" 2>&1 || echo "(make -C c sanitized: $(tail -n 1 "$work/made"))"
    for file in c/examples/*.c c/tests/*.c; do
        name=$(basename "$file" .c)
        $cc $strict -O1 -g -Ic/include -o "$bin/$name" "$file" -L"$out" -ldoor -pthread >"$work/made" 2>&1 ||
            give_up "$file does not compile:" "$work/made"
        cat "$work/made" >>"$work/warned"
    done
    # those of several files have a Makefile, as a user runs it
    for file in c/examples/*/Makefile; do
        make -s --no-print-directory -C "${file%/Makefile}" OUT="$bin" CC="$cc" CFLAGS="$strict -O1 -g" >"$work/made" 2>&1 ||
            give_up "${file%/Makefile} does not compile:" "$work/made"
        cat "$work/made" >>"$work/warned"
    done
}

# one run

# What scripts begin with. `up PROGRAM WORD ..` is a server that ends with the script, `seen TEXT [TIMES]` waits until so many lines of the
# history have the text, `held FILE` until the file is there.
prelude='
serving=
up() { "$@" & serving="$serving $!"; }
down() { kill $serving 2>/dev/null; wait; }
trap down EXIT
late() { echo "$1: not seen"; exit 99; }
seen() {
    looks=0
    until [ "$(grep -c -e "$1" "$HISTORY")" -ge "${2-1}" ]; do
        looks=$((looks + 1))
        [ $looks -lt 1500 ] || late "$1"
        sleep 0.02
    done
}
held() {
    looks=0
    until [ -e "$1" ]; do
        looks=$((looks + 1))
        [ $looks -lt 1500 ] || late "$1"
        sleep 0.02
    done
}
'

# wrong WHAT WANTED CAME: the case fails, for this reason.
wrong() {
    bad=yes
    echo "$title: $1"
    printf '%s\n' "$2" | head -n 20 | sed 's/^/    wanted  /'
    printf '%s\n' "$3" | head -n 20 | sed 's/^/    came    /'
}

# What was not asked for after the last run: its status is to be 0, and its error stream empty.
settled() {
    [ -n "$status" ] || return 0
    [ -n "$ended" ] || ends 0
    [ -n "$said" ] || says
    status=
}

# start SCRIPT [OPTION ..]: doord over the script in an empty folder, behind what goes on here. Its pid stands in $work/pid.
start() {
    fresh
    rm -f "$work/history" "$work/pid"
    : >"$work/out"
    printf '%s\n%s\n' "$prelude" "$1" >"$work/script"
    shift
    (
        cd "$work/d" || exit 1
        HISTORY=$work/history TMPDIR=$work/t PATH=$bin:$out:$PATH
        export HISTORY TMPDIR PATH
        [ -z "$files" ] || ulimit -n "$files"
        [ -z "$blocks" ] || ulimit -S -f "$blocks"
        exec $most sh -c 'echo $$ >"$0"; exec "$@"' "$work/pid" "$doord" "$@" -o "$work/history" -- sh "$work/script"
    ) >"$work/out" 2>"${errors:-$work/err}" </dev/null &
    running=$!
    ended=
    said=
}

# finish: waits for what was started, and judges its history.
finish() {
    wait "$running" 2>/dev/null
    status=$?
    swept
    [ $status -ne 124 ] || wrong "time" "an end within the time" "none"
    legal "$work/history"
    [ -z "$(ls -A "$work/t")" ] || wrong "the socket's folder" "nothing of it is left" "$(ls -A "$work/t")"
}

run() {
    start "$@"
    finish
}

# legal FILE: a history that is legal and complete, and that nobody else may read. Leaves in `events` how many it has.
legal() {
    events=-1
    "$DOORLAB" history "$1" >"$work/verdict" 2>&1
    judged=$?
    [ $judged -eq 0 ] && events=$(sed -n 's/^legal \([0-9]*\)$/\1/p' "$work/verdict")
    [ "$(tail -n 1 "$1")" = "end complete $events" ] || wrong "the history" "legal N, end complete N" "$(cat "$work/verdict"), $(tail -n 1 "$1")"
    [ -n "$(find "$1" -perm 0600)" ] || wrong "the history's mode" 600 "$(ls -l "$1")"
}

# what a run is to have done

lines() { [ $# -eq 0 ] || printf '%s\n' "$@"; }

# gives LINE ..: the output; gives_sorted: in any order.
gives() {
    lines "$@" >"$work/wanted"
    cmp -s "$work/wanted" "$work/out" || wrong "output" "$(cat "$work/wanted")" "$(cat "$work/out")"
}

gives_sorted() {
    sort "$work/out" >"$work/sorted"
    cp "$work/sorted" "$work/out"
    lines "$@" | sort >"$work/wanted"
    cmp -s "$work/wanted" "$work/out" || wrong "output, sorted" "$(cat "$work/wanted")" "$(cat "$work/out")"
}

# says LINE ..: the error stream. says_like PATTERN [MOST]: lines, one at least, that are all so.
says() {
    said=yes
    lines "$@" >"$work/wanted"
    cmp -s "$work/wanted" "$work/err" || wrong "error stream" "$(cat "$work/wanted")" "$(cat "$work/err")"
}

may_say() {
    said=yes
    ! grep -Ev -e "$1" "$work/err" >"$work/unlike" || wrong "error stream" "lines as $1" "$(cat "$work/unlike")"
}

says_like() {
    may_say "$1"
    count=$(wc -l <"$work/err")
    [ "$count" -ge 1 ] && [ "$count" -le "${2-1}" ] || wrong "error stream" "1 to ${2-1} lines as $1" "$(cat "$work/err")"
}

# ends STATUS
ends() {
    ended=yes
    [ "$status" -eq "$1" ] || wrong "status" "$1" "$status"
}

fresh() {
    settled
    rm -rf "$work/d" "$work/t"
    mkdir "$work/d" "$work/t"
}

# What is left of a run, where doord did not end it. timeout(1) makes a group of processes of all that it runs.
swept() {
    [ -z "$most" ] || kill -s KILL -- "-$running" 2>/dev/null
    running=
}

# doord_alone WORD ..: doord with these words, in an empty folder, without a history that is judged. doord_here: in the folder as it is.
doord_alone() {
    fresh
    doord_here "$@"
}

doord_here() {
    (
        cd "$work/d" || exit 1
        TMPDIR=$work/t PATH=$bin:$out:$PATH
        export TMPDIR PATH
        exec $most "$doord" "$@"
    ) >"$work/out" 2>"$work/err" </dev/null
    status=$?
    ended=
    said=
    [ -z "$(ls -A "$work/t")" ] || wrong "the socket's folder" "nothing of it is left" "$(ls -A "$work/t")"
}

# alone WORD ..: a program without doord.
alone() {
    fresh
    (
        cd "$work/d" || exit 1
        LD_LIBRARY_PATH=$out PATH=$bin:$PATH
        export LD_LIBRARY_PATH PATH
        unset LD_PRELOAD DOORD_SOCKET DOORD_TABLE
        exec $most "$@"
    ) >"$work/out" 2>"$work/err" </dev/null &
    wait $!
    status=$?
    ended=
    said=
}

for file in tests/c/*.sh $([ $folder = tests/c ] || ls $folder/*.sh); do
    . "$top/$file"
done

# all of it

[ -x "$DOORLAB" ] || give_up "$DOORLAB: not there; .ci/run builds it" /dev/null
build
: >"$work/empty.cc"
[ -n "$picked" ] || picked=$(list)

# those that no doord runs, or that measure
once="headers scribbles fuzz thread_sanitizer"

keep() {
    [ -n "${KEEP-}" ] || return 0
    mkdir -p "$KEEP/$title"
    for file in out err history verdict script; do
        [ ! -e "$work/$file" ] || cp "$work/$file" "$KEEP/$title/"
    done
}

for doord in "$out/doord" "$out/sanitized/doord"; do
    [ -x "$doord" ] || continue
    [ -z "$plain" ] || [ "$doord" = "$out/doord" ] || continue
    for name in $picked; do
        title=$name
        [ "$doord" = "$out/doord" ] || title="$name, sanitized"
        case " $once " in
        *" $name "*) [ "$doord" = "$out/doord" ] || continue ;;
        esac
        body=case_$name
        if ! command -v "$body" >/dev/null; then
            echo "$name: there is no such case"
            failed=$((failed + 1))
            continue
        fi
        time=0
        while [ $time -lt "$times" ]; do
            time=$((time + 1))
            bad=
            status=
            events=-1
            $body
            settled
            if [ -z "$bad" ]; then
                passed=$((passed + 1))
            else
                failed=$((failed + 1))
                keep
            fi
        done
    done
done
echo "$passed passed, $failed failed"
[ "$failed" -eq 0 ]
