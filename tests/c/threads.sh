# Threads that come, end, and are cancelled.
# Read by tests/c.sh, which has the words that the cases use.

case_main_ends_by_pthread_exit() {
    run 'mainless server m & s=$!; doorwait m; ask m x; ask m y; kill $s; wait $s 2>/dev/null; echo "server: $?"
        up serve w; doorwait w; mainless client w & c=$!; held main_ends; touch go; wait $c; echo "client: $?"' -b 'mainless=2,2,0' -b 'mainless=4,0,0'
    gives 'x: x' 'y: y' 'server: 143' answered answered answered 'the process ends' 'client: 0'
    # some shells tell of it
    may_say '^Terminated'
}

# without main a process is there all the same, and is ended with what COMMAND left
case_main_has_ended_and_is_left() {
    run '(mainless server m &); doorwait m; ask m x'
    gives 'x: x'
    says 'doord: sh has ended: SIGTERM to what it left (--stay waits for it)'
}

case_crowds_of_threads() {
    run 'up serve w; doorwait w; crowds joined 300; crowds detached 300; crowds c11 100' -b 'serve=1,8,0' -b 'crowds=9,0,0'
    gives 'joined: 300' 'detached: 300' 'c11: 200'
}

# The client is killed, or a handler ends its call. Cleanup handlers run, and destructors, which call doors.
for_cancelled='
leaves() {
    rm -f go
    ask -h sigaction "$1" "$2" >"leaves_$2" & client=$!
    held "$2"
    kill -s "$3" $client
    wait $client
}
'

case_servers_are_cancelled() {
    run "$for_cancelled up cancels c n; doorwait n
        leaves c pause KILL; held gone_pause; leaves c condition ALRM; held gone_condition; leaves c spin KILL; held gone_spin
        leaves c return ALRM; seen 'testcancel = ok yes' 4; touch go; held gone_return
        leaves c late KILL; seen 'testcancel = ok yes' 5; touch go; held gone_late
        cat leaves_condition leaves_return" -b 'cancels=4,12,0'
    gives 'pause: cleanup' 'pause: destructor' 'condition: cleanup' 'condition: destructor' 'spin: cleanup' 'spin: destructor' \
        'return: cleanup' 'return: destructor' 'late: goes on' 'late: cleanup' 'late: destructor' \
        'condition: EINTR' 'handled 1' 'return: EINTR' 'handled 1'
    # some shells tell of it
    may_say '^Killed'
}

# With cancellation disabled, or a door that has DOOR_NO_CANCEL, nobody is; nor in the next invocation, when it is enabled again.
case_servers_are_not_cancelled() {
    run "$for_cancelled up cancels c n; doorwait n
        leaves n keep KILL; seen 'testcancel = ok no'; touch kept; seen 'return \"keep\"'
        leaves c off KILL; seen 'testcancel = ok yes'; touch on; seen 'return \"off\"'
        ask c enabled enabled enabled; ask n enabled" -b 'cancels=2,2,0'
    gives 'keep: goes on' 'off: goes on' 'enabled: enabled' 'enabled: enabled' 'enabled: enabled' 'enabled: enabled'
    may_say '^Killed'
}
