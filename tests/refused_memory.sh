#!/bin/sh
# Refuses each allocation of a command in turn, one for each run, and looks at what comes: status 5 with no output, or the whole
# answer; and on the error stream all of the words, or none of them. It is no part of the gate: it takes some minutes, and a C compiler to
# build the small library that refuses.
#
# tests/refused_memory.sh [PROGRAM]     without a word, the program that `rt ci` left
#
# `play`, `show`, `check` and `load` have one answer for an input. What `run` answers may differ from one run to the next: it is to be
# a trace that `check` finds legal. The last line but one counts the refused allocations of each command.
#
# The last line is of seats, where `rt ci` left the program of their tests: one of these goes through a call between two seats, where a
# call that finds no memory is to leave all as it was, but the number of its seat's calls, and to be answered when it is made again.

LC_ALL=C
export LC_ALL
top=$(cd "$(dirname "$0")/.." && pwd) || exit 1
program=${1-$top/crates/doors/out/doors}
work=$(mktemp -d) || exit 1
trap 'rm -rf "$work"' EXIT
trap 'exit 1' HUP INT TERM

if ! command -v "${CC-cc}" >"$work/cc"; then
    echo "no C compiler: nothing was refused"
    exit 0
fi

# The library counts the calls that ask for memory, refuses the one that REFUSED_CALL names, and keeps the count in a file.
cat >"$work/refuse.c" <<'END'
#define _GNU_SOURCE
#include <dlfcn.h>
#include <errno.h>
#include <fcntl.h>
#include <stdatomic.h>
#include <stddef.h>
#include <stdlib.h>
#include <sys/mman.h>
#include <unistd.h>

static atomic_long own;
static atomic_long *calls = &own;
static long refused_call = -1;

static int is_refused(void) {
    return atomic_fetch_add(calls, 1) + 1 == refused_call;
}

static void *next(const char *name) { return dlsym(RTLD_NEXT, name); }

void *malloc(size_t size) {
    static void *(*real)(size_t);
    if (!real) real = next("malloc");
    if (is_refused()) { errno = ENOMEM; return NULL; }
    return real(size);
}

void *realloc(void *old, size_t size) {
    static void *(*real)(void *, size_t);
    if (!real) real = next("realloc");
    if (is_refused()) { errno = ENOMEM; return NULL; }
    return real(old, size);
}

void *aligned_alloc(size_t alignment, size_t size) {
    static void *(*real)(size_t, size_t);
    if (!real) real = next("aligned_alloc");
    if (is_refused()) { errno = ENOMEM; return NULL; }
    return real(alignment, size);
}

int posix_memalign(void **to, size_t alignment, size_t size) {
    static int (*real)(void **, size_t, size_t);
    if (!real) real = next("posix_memalign");
    if (is_refused()) return ENOMEM;
    return real(to, alignment, size);
}

/* The count stands in a file from the start, since the program may end without what a library does at the end. */
__attribute__((constructor)) static void begin(void) {
    const char *word = getenv("REFUSED_CALL");
    const char *name = getenv("REFUSED_COUNT");
    int file = name ? open(name, O_RDWR | O_CREAT, 0600) : -1;
    if (word) refused_call = atol(word);
    if (file >= 0 && ftruncate(file, sizeof(long)) == 0) {
        void *page = mmap(NULL, sizeof(long), PROT_READ | PROT_WRITE, MAP_SHARED, file, 0);
        if (page != MAP_FAILED) calls = page;
    }
    atomic_store(calls, 0);
}
END
"${CC-cc}" -O1 -shared -fPIC -o "$work/refuse.so" "$work/refuse.c" -ldl || exit 1

failed=0
fail() {
    failed=$((failed + 1))
    echo "$1: $2"
}

# answer CALL WORDS INPUT: with this call refused; 0 refuses none.
answer() {
    REFUSED_CALL=$1 REFUSED_COUNT=$work/count timeout 60 env LD_PRELOAD="$work/refuse.so" "$program" $2 <"$3" >"$work/out" 2>"$work/err"
}

# is_own WORDS INPUT STATUS: whether what came is the command's own answer.
is_own() {
    if [ "$1" != run ]; then
        [ "$3" -eq "$whole" ] && cmp -s "$work/out" "$work/whole"
        return
    fi
    case $3 in
    0 | 1 | 4) ;;
    *) return 1 ;;
    esac
    cat "$2" >"$work/both"
    echo trace >>"$work/both"
    cat "$work/out" >>"$work/both"
    "$program" check <"$work/both" >"$work/verdict" 2>"$work/said"
}

# is_told WORDS STATUS: whether the error stream has its one line, or what is told where no call is refused, or nothing.
is_told() {
    case $2 in
    5) [ "$(cat "$work/err")" = "doors: out of memory" ] && return ;;
    3) head -n 1 "$work/told" | cmp -s - "$work/err" && return ;;
    *) [ ! -s "$work/err" ] && return ;;
    esac
    if [ "$1" = run ]; then [ "$(tail -c 1 "$work/err" | wc -l)" -eq 1 ]; else cmp -s "$work/err" "$work/told"; fi
}

# refuse NAME WORDS INPUT: each call of the command in turn, until one run makes fewer.
refuse() {
    : >"$work/count"
    answer 0 "$2" "$3"
    whole=$?
    cp "$work/out" "$work/whole"
    cp "$work/err" "$work/told"
    most=$(od -An -t d8 -N 8 "$work/count" | tr -d ' ')
    if [ -z "$most" ] || [ "$most" -lt 1 ]; then
        fail "$1" "no allocation was counted"
        return
    fi
    if ! is_own "$2" "$3" "$whole"; then
        fail "$1" "with none refused: status $whole"
        return
    fi
    call=1
    refused=0
    untold=0
    # threads may ask more often the next time
    while [ "$call" -le "$((most + 8))" ]; do
        answer "$call" "$2" "$3"
        status=$?
        if [ "$status" -eq 5 ]; then
            [ ! -s "$work/out" ] || fail "$1" "call $call: status 5 with output"
            refused=$((refused + 1))
        elif is_own "$2" "$3" "$status"; then
            # a refusal that is met in another way, or none
            [ "$call" -gt "$most" ] || refused=$((refused + 1))
        else
            fail "$1" "call $call: status $status"
        fi
        is_told "$2" "$status" || fail "$1" "call $call: status $status, and other words on the error stream"
        [ "$status" -eq 5 ] || [ "$(wc -c <"$work/err")" -ge "$(wc -c <"$work/told")" ] || untold=$((untold + 1))
        call=$((call + 1))
    done
    sum=count_${2%% *}
    eval "$sum=\$((\${$sum-0} + refused))"
    echo "$1: $refused of $most, and $untold without words"
}

for file in tests/play/leaving/interrupts_from_the_root_of_a_chain_down.in tests/play/associations/sixty_four_associations_of_one_pipe_fire_at_one_event.in \
    tests/play/tasks/spares_and_work.in tests/play/notices/notices_of_two_doors_at_one_event_go_by_door_number.in examples/time_out.doors \
    examples/nscd.doors; do
    script=$top/$file
    name=$(basename "${file%.*}")
    refuse "play $name" play "$script"
    refuse "show $name" show "$script"
    "$program" play <"$script" >"$work/trace"
    cat "$script" >"$work/checked"
    echo trace >>"$work/checked"
    cat "$work/trace" >>"$work/checked"
    refuse "check $name" check "$work/checked"
    refuse "run $name" run "$script"
done
# answers with words on the error stream
for name in stalled_in_a_call_at_ports_and_for_a_path call_of_a_common_door_whose_only_thread_is_bound budget_used_up \
    turn_of_a_server_whose_process_was_killed refused_turn version_5; do
    refuse "play $name" play "$(echo "$top"/tests/play/*/"$name.in")"
done
for name in variables_that_nothing_sets lines_after_serve_and_exit unknown_command string_with_no_end procedure_of_another_process; do
    refuse "show $name" show "$top/tests/show/$name.in"
done
for name in another_answer thread_of_a_killed_process no_trace; do
    refuse "check $name" check "$top/tests/check/$name.in"
done
refuse "load 3" "load 3" /dev/null
refuse "load 0" "load 0" /dev/null
refuse "plai" plai /dev/null
echo "refused: play ${count_play-0}, plai ${count_plai-0}, show ${count_show-0}, check ${count_check-0}, run ${count_run-0}, load ${count_load-0}; wrong: $failed"

# seat_test CALL TEST: a test of seats with this call refused.
seat_test() {
    REFUSED_CALL=$1 REFUSED_COUNT=$work/count timeout 60 env LD_PRELOAD="$work/refuse.so" "$seats" "tests::$2" >"$work/out" 2>"$work/err"
}

seats=$top/crates/test_seats/out/test_seats_tests
if [ -x "$seats" ]; then
    : >"$work/count"
    seat_test 0 goes_on_after_want_of_memory || fail seats "with none refused"
    most=$(od -An -t d8 -N 8 "$work/count" | tr -d ' ')
    [ "${most:-0}" -ge 1 ] || fail seats "no allocation was counted"
    call=1
    before=0
    within=0
    while [ "$call" -le "${most:-0}" ]; do
        if ! seat_test "$call" goes_on_after_want_of_memory; then
            # without the kernel or the seats there is nothing to call
            grep -q 'the kernel and the seats are made' "$work/err" || fail seats "call $call"
            before=$((before + 1))
        elif ! seat_test "$call" a_call_and_its_refusals; then
            # this one lets no call find no memory
            within=$((within + 1))
        fi
        call=$((call + 1))
    done
    [ "$within" -ge 1 ] || fail seats "no call found no memory"
    echo "seats: refused $most, of which $within in their calls and $before before; wrong in all: $failed"
fi
[ "$failed" -eq 0 ]
