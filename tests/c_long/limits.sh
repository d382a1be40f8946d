# Limits that are met only after long.
# Read by tests/c_long.sh, which has the words that the cases use.

case_event_limit() {
    start 'up serve w; doorwait w; ask -n 260000 w "echo x"; echo "ask: $?"'
    wait "$running"
    status=$?
    ends 122
    says_like 'doord: .*1,000,000|libdoor: doord is gone' 4
    "$DOORLAB" history "$work/history" >"$work/verdict" 2>&1
    [ "$(cat "$work/verdict")" = "legal 1000000" ] || wrong "the history" "legal 1000000" "$(cat "$work/verdict")"
}

case_many_paths() {
    run 'many paths'
    gives 'done'
    says 'doord: many: EMFILE: doors are attached to at most 4,096 files in the life of a kernel'
}
