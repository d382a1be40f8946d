# Limits: how many threads, processes, calls and descriptors there may be.
# Read by tests/c.sh, which has the words that the cases use.

case_many_threads_at_once() {
    run 'up serve -p 1 w; doorwait w; ask w "echo ready"; ask -t 47 w "hold go x" & asks=$!; seen " call 0" 34; touch go; wait $asks' \
        -b 'serve=2,1,0' -b 'ask=48,0,0' -b '*=1,0,0'
    gives 'echo ready: ready' '47 ok'
}

case_forty_eight_threads() {
    run 'up serve w; doorwait w; ask -t 48 -n 20 w "echo x"' -b 'serve=1,6,0' -b 'ask=49,0,0' -b '*=1,0,0'
    gives '960 ok'
}

case_eagain() {
    run 'up serve -p 1 w; doorwait w; ask w "echo ready"; ask -t 40 w "hold go x" & asks=$!; seen " call 0" 41; touch go; wait $asks' \
        -b 'serve=2,1,0' -b 'ask=41,0,0' -b '*=1,0,0' --eagain
    gives_sorted 'echo ready: ready' '33 ok' '7 EAGAIN'
    says 'doord: ask: EAGAIN: at most 32 calls wait in a pool; without --eagain further ones are held back'
    run 'up serve -p 1 w; doorwait w; ask w "echo ready"; ask -t 40 w "hold go x" & asks=$!; seen " call 0" 34; touch go; wait $asks' \
        -b 'serve=2,1,0' -b 'ask=41,0,0' -b '*=1,0,0'
    gives 'echo ready: ready' '40 ok'
}

# a call that is held back is not made: the client's end, and a signal, end it
case_held_back() {
    run 'up serve -p 1 w; doorwait w; ask w "echo ready"; ask -t 40 w "hold go x" & asks=$!; seen " call 0" 34; ask -h signal -a 1 w "echo y"
        ask w "echo z" & z=$!; sleep 0.2; kill -9 $z; wait $z 2>/dev/null; touch go; wait $asks; ask w "echo u"' \
        -b 'serve=2,1,0' -b 'ask=41,0,0' -b 'ask=1,0,0' -b '*=1,0,0'
    gives 'echo ready: ready' 'echo y: EINTR' 'handled 1' '40 ok' 'echo u: u'
}

case_too_many_threads() {
    run 'up serve w; doorwait w; ask -t 10 w "hold go x" & asks=$!; seen "enter c1"; sleep 0.5; touch go; wait $asks; ask -t 1 w "echo y"'
    says_like 'ask.*-b ask='
    awk '$2 == "ok" { ok += $1 } $2 == "EAGAIN" { again += $1 } END { print ok + again, (ok >= 2 && again >= 1) }' "$work/out" >"$work/sum"
    [ "$(cat "$work/sum")" = "11 1" ] || wrong "ten threads and one" "some ok, some EAGAIN, 11 in all" "$(cat "$work/out")"
}

case_more_threads_than_slots() {
    run 'up serve w; doorwait w; ask -t 128 w "echo x"; ask -t 1 w "echo y"'
    says_like 'ask.*-b ask=|^libdoor: EAGAIN: at most 128 threads of a program use doors at once$' 2
    total=$(awk '{ sum += $1 } END { print sum }' "$work/out")
    [ "$total" = 129 ] || wrong "128 threads and one" "129 answers" "$(cat "$work/out")"
}

case_small_stacks() {
    run '(ulimit -s 150; exec serve w) & pid=$!; doorwait w; (ulimit -s 150; ask -t 2 -n 10 w "echo x"; ask w "call w echo y"); kill $pid' -b 'ask=3,0,0'
    gives '20 ok' 'call w echo y: y'
}

case_too_many_processes() {
    run 'up serve w; doorwait w; i=0; while [ $i -lt 12 ]; do ask -k go w "echo x" & i=$((i + 1)); done; seen "collect = ok" 8; sleep 0.3; touch go; wait_for=$!
        wait $wait_for; sleep 0.2; ask w "echo y"'
    may_say '-b ask='
    sort "$work/out" | uniq -c | sed 's/^ *//' >"$work/sum"
    [ "$(cat "$work/sum")" = "8 echo x: x
1 echo y: y
4 w: EAGAIN" ] || wrong "12 processes" "8 served, 4 EAGAIN" "$(cat "$work/sum")"
}

# where there is room for one, the next is served as soon as the one before has ended
case_one_after_the_other() {
    run 'up serve w; seen " attach "; i=0; while [ $i -lt 100 ]; do ask w "echo x" || exit; i=$((i + 1)); done | uniq -c | sed "s/^ *//"' \
        -b 'serve=2,4,0' -b 'ask=1,0,0' -b '*=60,0,0'
    gives '100 echo x: x'
}

case_ten_thousand_calls() {
    run 'up serve w; doorwait w; ask -n 10000 w "echo x"'
    gives '10000 ok'
    [ $events -ge 40000 ] || wrong "events" "40000 at least" "$events"
}

case_thousand_clients() {
    run 'up serve w; doorwait w; i=0; while [ $i -lt 1000 ]; do ask w "echo $i" || exit; i=$((i + 1)); done | awk "\$2 == \$3 \":\"" | wc -l'
    gives 1000
}

case_thousand_threads() {
    run 'up serve w; doorwait w; threads 1000'
    gives 'done'
}

case_few_descriptors() {
    run 'limits 8' -l 8
    gives 'done'
    says_like '^doord: limits2?: EMFILE: a process has at most 8 descriptors of doors; -l LIMIT gives more$' 2
    run 'limits 16' -l 16
    gives 'done'
    says_like '^doord: limits2?: EMFILE: a process has at most 16 descriptors of doors; -l LIMIT gives more$' 2
}

case_many_procedures() {
    run procedures
    gives 'done'
    run 'many procedures'
    gives 'done'
    says 'doord: many: at most 64 procedures have names in the history: further ones go by the name of the last'
}

# a program may have few files open, and doord as well
case_few_files() {
    run 'up serve w; doorwait w; (ulimit -n 12; ask w "echo x"; threads 5)'
    gives 'echo x: x' 'done'
    files=30
    run 'up serve w; doorwait w; for i in 1 2 3 4 5 6; do ask w "echo x" & asks="$asks $!"; done; wait $asks; true'
    files=
    sort "$work/out" | uniq -c >"$work/sum"
    grep -q 'echo x: x' "$work/out" && [ "$(grep -Ec '^(echo x: x|w: (ENOMEM|EMFILE|EAGAIN|ENOTSUP))$' "$work/out")" -eq 6 ] ||
        wrong "six clients of a doord that may open 30 files" "each served, or an error of its first call" "$(cat "$work/sum")"
    may_say '^libdoor: doord does not answer|^doord: ask'
}
