# Descriptors of doors: what is told of them, copies, closes, and those that many threads use.
# Read by tests/c.sh, which has the words that the cases use.

case_stats() {
    run stats
    gives 'done'
    # programs of other compilers and with large files
    # shellcheck disable=SC2086 # options are to be several
    $cc $strict -D_FILE_OFFSET_BITS=64 -O2 -Ic/include -o "$bin/stats_large" c/tests/stats.c -L"$out" -ldoor -pthread >"$work/made" 2>&1 ||
        wrong "-D_FILE_OFFSET_BITS=64" "a program" "$(cat "$work/made")"
    run stats_large
    gives 'done'
}

# the system's own tools see a door, too
case_tools_see_doors() {
    run 'echo text >w; up serve w; doorwait w; [ -e w ] && echo there; [ -f w ] || echo "no file"; stat -c %f w; ask w "detach w"; [ -f w ] && echo file; cat w'
    gives there 'no file' "$(printf '%x' $((0xd000 + 0644)))" 'detach w: ok' file text
}

case_copies() {
    run 'up serve w x; doorwait x; copies'
    gives 'done'
}

case_copies_across_a_fork() {
    run 'up serve w x; doorwait x; copies fork' -b 'copies=2,0,1'
    gives 'done'
}

# the kernel's descriptor goes when the library hears of it, or when the system says so
case_closed_behind_its_back() {
    for how in close_range fclose close range dup3; do
        run 'up serve -m a - w; doorwait w; closes unref '$how' & closes=$!; held opened; ask w "detach a"; touch detached; seen "enter n1"; touch told; wait $closes
            ask w "echo x"; grep -c "^[0-9]* closes_[1k] closes_[1k] close 0 = ok" "$HISTORY"'
        gives_sorted 1 'a unreferenced' 'detach a: ok' 'echo x: x'
        grep -q "closes_$([ $how = close_range ] && echo 1 || echo k) close 0" "$work/history" || wrong "$how" "a close by the keeper, but of close_range" "$(grep closes "$work/history")"
    done
}

case_event_loops() {
    run 'up serve w; doorwait w; loops' -b 'serve=2,6,0' -b 'loops=4,0,0'
    gives 'done'
}

case_closed_by_another_thread() {
    run 'up serve w -p 1 one; doorwait one; closers calls w begun & pid=$!; seen "= enter c1"; touch begun; wait $pid; rm go begun
        ask one "echo ready"; ask one "hold go y" & seen "= enter c5"; closers calls one begun & pid=$!; seen "= wait c6"; touch begun; wait $pid' -b 'closers=3,0,0'
    gives_sorted 'done' 'done' 'echo ready: ready' 'hold go y: y'
}

# by seeds; in the end the kernel has nothing left, so what is opened there has the number 0
case_shuffled_descriptors() {
    for seed in 1 2 3; do
        run 'empty() { sed "1,/echo last/d" "$HISTORY" | grep -q "shuffle_1 open w_[0-9]* = ok fd 0\$"; }
            up serve w x; doorwait x; shuffle '$seed' 400 & pid=$!; looks=0
            until empty || ! kill -0 $pid || [ $looks -eq 1500 ]; do looks=$((looks + 1)); sleep 0.02; done
            empty && echo empty; touch go; wait $pid' -b 'shuffle=1,0,3'
        gives empty 'done'
    done
}

# one that was closed, and whose number in the kernel is another's, is none
case_numbers_of_others() {
    run 'numbers' -b 'hostile=2,1,0'
    gives 'done'
}

# 33 calls wait or are at work, so the next is held back
case_closed_while_held_back() {
    run 'up serve w -p 1 one; doorwait one; ask one "echo ready"; ask -t 34 one "hold go x" & asks=$!; seen " call 0" 34; closers held one; wait $asks' \
        -b 'serve=2,2,0' -b 'ask=35,0,0' -b 'closers=3,0,0' -b '*=1,0,0'
    gives 'echo ready: ready' 'done' '34 ok'
}

case_no_call_goes_astray() {
    run 'closers mixed 400' -b 'closers=1,4,0' -b 'closers=4,0,0'
    gives 'done'
}
