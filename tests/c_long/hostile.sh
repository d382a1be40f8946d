# Programs that do not speak as they should, for long.
# Read by tests/c_long.sh, which has the words that the cases use.

# a hundred thousand messages by each seed, while a good pair makes ten thousand calls
case_mutants_of_seeds() {
    for seed in 1 2 3; do
        mutants $seed 100000 10000 65536
    done
}

# attacks that use no process of the kernel up, again and again: nothing is left of any of them
case_attacks_again_and_again() {
    for attack in connections hellos messages bells shrinks; do
        run "$sums
            up serve w; doorwait w; ask w 'echo first'; began; i=0
            while [ \$i -lt 30 ]; do { hostile $attack \$i; } 2>/dev/null; i=\$((i + 1)); done; as_before
            ask w 'echo x'; up serve v; doorwait v; ask v 'echo z'" -b 'serve=2,4,0' -b 'serve=2,4,0' -b '*=2,1,0'
        gives 'echo first: first' 'echo x: x' 'echo z: z'
        may_say '^doord: '
    done
}

# a flood of good requests, by one program, ends the history for all: that is said; until then others are served
case_flood_of_events() {
    start 'up serve w; doorwait w; ask w "echo x"; cutoffs events & ask -n 100 w "echo y"; wait'
    wait "$running"
    status=$?
    ends 122
    says_like 'doord: .*1,000,000|libdoor: doord is gone' 4
    head -n 2 "$work/out" >"$work/sorted"
    cp "$work/sorted" "$work/out"
    gives 'echo x: x' '100 ok'
    "$DOORLAB" history "$work/history" >"$work/verdict" 2>&1
    [ "$(cat "$work/verdict")" = "legal 1000000" ] || wrong "the history" "legal 1000000" "$(cat "$work/verdict")"
}

# a search by libFuzzer, which comes with clang, for what ends doord; what it keeps are inputs by which it came somewhere new, and their
# histories are legal, too
case_fuzz() {
    if ! command -v clang >/dev/null; then
        echo "no clang: the search is left out"
        return
    fi
    make -C c fuzz >"$work/made" 2>&1 || give_up "make -C c fuzz failed:" "$work/made"
    fresh
    mkdir "$work/d/kept"
    for seed in 1 2 3 4 5 6 7 8; do
        awk -v seed=$seed 'BEGIN { srand(seed); for (i = 0; i < 1000; i++) printf "%c", 1 + rand() * 255 }' >"$work/d/kept/$seed"
    done
    "$out/fuzz_wire" -max_total_time=$((${MINUTES:-1} * 60)) -max_len=3000 -len_control=0 -artifact_prefix="$work/d/" "$work/d/kept" >"$work/err" 2>&1 ||
        wrong "fuzz_wire" "nothing found" "$(grep -E 'ERROR|SUMMARY|doord fails' "$work/err")"
    [ "$(ls "$work/d/kept" | wc -l)" -gt 100 ] || wrong "fuzz_wire" "100 inputs that came somewhere new" "$(ls "$work/d/kept" | wc -l)"
    for input in $(ls "$work/d/kept" | head -n 100); do
        rm -f "$work/history"
        FUZZ_HISTORY=$work/history "$out/fuzz_wire" "$work/d/kept/$input" >/dev/null 2>&1
        legal "$work/history"
    done
}
