# Programs that do not speak as they should.
# Read by tests/c.sh, which has the words that the cases use.

# What doord has open, and what memory it has, before an attack and after it. `began` notes it, once those that ended are gone. `as_before
# FILES` waits until there are no more descriptors than then, and that many, and says where it is not so. Memory is that of the heap, in
# kilobytes, and of what is shared with programs: what malloc keeps for the next time, as for a program that comes again, is below MOST. The
# kernel has some 400 bytes of each door that was ever made. Under the address sanitizer memory is not looked at; that sees itself, at the end,
# what nothing leads to any more.
sums='
MOST=${MOST-512}
open() { ls /proc/$PPID/fd | wc -l; }
memory() {
    case $(readlink /proc/$PPID/exe) in
    */sanitized/*) echo 0 ;;
    *) awk "/^(VmData|RssShmem):/ { sum += \$2 } END { print sum }" /proc/$PPID/status ;;
    esac
}
began() {
    seen " of ask has ended"
    files=$(open)
    kilobytes=$(memory)
}
as_before() {
    looks=0
    until [ "$(open)" -le $((files + ${1-0})) ] && [ "$(memory)" -le $((kilobytes + MOST)) ]; do
        looks=$((looks + 1))
        [ $looks -lt 500 ] || { echo "descriptors $files, then $(open); memory $kilobytes, then $(memory)"; return; }
        sleep 0.02
    done
    [ -z "${SHOW-}" ] || echo "descriptors $files, then $(open); memory $kilobytes, then $(memory)" >>"$SHOW"
}
'

# attack NAME [SEED [FILES]]: others are served after it, and doord has no more open than before it, but for FILES that are attached still.
attack() {
    run "$sums
        up serve w; doorwait w; ask w 'echo first'; began; { hostile $1 ${2-}; } 2>/dev/null; as_before ${3-}
        ask w 'echo x'; ask -n 50 w 'echo y'; up serve v; doorwait v; ask v 'echo z'"
    gives 'echo first: first' 'echo x: x' '50 ok' 'echo z: z'
    may_say '^doord: '
}

case_attack_connections() {
    attack connections
}

case_attack_hellos() {
    attack hellos
}

case_attack_messages() {
    attack messages
}

case_attack_stand_ins() {
    attack stand_ins
}

case_attack_requests() {
    attack requests 1
    attack requests 2
    attack requests 3
}

case_attack_texts() {
    attack texts 0 1
}

case_attack_changes() {
    attack changes
}

case_attack_shrinks() {
    attack shrinks
}

case_attack_bells() {
    attack bells
}

case_attack_slots() {
    attack slots
}

case_attack_tables() {
    attack tables
}

case_attack_floods() {
    run "$sums"'up serve w; up serve v; doorwait v; doorwait w; ask w "echo first"; began
        hostile floods & attacks=$!; held flooded; ask w "echo x"; ask v "echo z"; touch served; wait $attacks; as_before'
    gives 'echo first: first' 'echo x: x' 'echo z: z'
    may_say '^doord: '
}

case_attack_greedy() {
    run "$sums"'mkdir f; echo hello >f/a; up fileserver fs f; up serve w; doorwait w; doorwait fs; ask w "echo first"; began
        { hostile greedy & } 2>/dev/null; attacks=$!; held greedy; ask w "echo x"; fileclient fs a; touch served; wait $attacks; as_before'
    gives 'echo first: first' 'echo x: x' hello
    may_say '^doord: '
}

# programs that end, stop or go on where they should not. Others are served meanwhile,
# as soon as the file is there, and afterwards.
cutoffs() {
    run "$sums"'up serve w; up serve v; doorwait v; doorwait w; ask w "echo first"; began
        cutoffs '"$1"' & attacks=$!; held '"$2"'; ask w "echo x"; ask -n 50 v "echo y"; touch served; wait $attacks; as_before; ask w "echo z"'
    gives_sorted 'echo first: first' 'echo x: x' '50 ok' 'echo z: z' over
}

case_cutoffs_dies() {
    cutoffs dies .
}

case_cutoffs_stops() {
    cutoffs stops stopped
}

case_cutoffs_twice() {
    cutoffs twice .
}

case_cutoffs_interrupts() {
    cutoffs interrupts .
}

case_cutoffs_longer() {
    cutoffs longer .
}

case_cutoffs_doubles() {
    cutoffs doubles .
}

case_cutoffs_lingers() {
    cutoffs lingers .
}

case_cutoffs_execs() {
    cutoffs execs .
}

case_cutoffs_knocks() {
    cutoffs knocks knocked
}

# the child has the descriptors of its parent, and comes never: somebody closes them
case_cutoffs_forks() {
    run 'up serve w; doorwait w; cutoffs forks; seen "^[0-9]* hostile2_k hostile2_k close 0 = ok$"; ask w "echo x"' -b 'hostile=2,1,1' -b '*=2,1,0'
    gives over 'echo x: x'
}

# a pid that is another's by now
case_reused_pid() {
    run 'up serve w; doorwait w; reuse $PPID; ask w "echo x"'
    sed 's/^pids cannot be chosen here$/over/' "$work/out" >"$work/sorted"
    cp "$work/sorted" "$work/out"
    gives over 'echo x: x'
}

# an error stream that is full, and that nobody reads: what doord would say there is not said
case_full_error_stream() {
    mkfifo "$work/stuck"
    exec 8<>"$work/stuck"
    errors=$work/stuck
    run 'up serve w; doorwait w; head -c 65536 /dev/zero >&2; ask -t 3 w "echo x" >some; ask w "echo y"' -b 'ask=1,0,0'
    errors=
    exec 8>&-
    rm -f "$work/stuck"
    : >"$work/err"
    gives 'echo y: y'
}

# messages by a seed, of which each byte was cut or changed, while good programs make calls
mutants() {
    run "MOST=${4-8192}; $sums"'up serve w; doorwait w; ask w "echo first"; began; mutants '"$1 $2"' & attacks=$!; ask -n '"$3"' w "echo x"; wait $attacks; as_before 1
        ask w "echo y"' -b 'hostile=6,4,1' -b 'hostile=6,4,1' -b 'serve=2,4,0' -b '*=2,1,0'
    gives_sorted 'echo first: first' "$2 messages" "$3 ok" 'echo y: y'
    may_say '^doord: hostile'
}

case_mutants() {
    mutants 1 4000 1000
}

case_storm() {
    run 'for seed in 1 2 3; do storm $seed 2 & storms="$storms $!"; last=$!; done; sleep 0.7; kill -9 $last 2>/dev/null
        storm 4 2 & storms="$storms $!"; sleep 0.2; kill -9 $! 2>/dev/null; wait $storms 2>/dev/null; up serve w; doorwait w; ask w "echo x"' \
        -b 'storm=4,6,0' -b 'storm=4,4,1' -b 'storm=3,4,0' -b '*=2,2,0'
    gives 'echo x: x'
    may_say '-b storm='
}

case_wild_storm() {
    run 'for seed in 1 2 3; do storm $seed 1 wild & storms="$storms $!"; done; wait $storms 2>/dev/null; rm -f w; up serve w; doorwait w; ask w "echo x"' \
        -b 'storm=4,6,0' -b 'storm=4,4,1' -b 'storm=3,4,0' -b '*=2,2,0'
    tail -n 1 "$work/out" >"$work/last"
    [ "$(cat "$work/last")" = 'echo x: x' ] || wrong "after the storm" 'echo x: x' "$(cat "$work/last")"
    # a program whose files are closed under it may end in any way
    may_say '-b storm=|^doord: storm|^libdoor: |libgcc_s'
}
