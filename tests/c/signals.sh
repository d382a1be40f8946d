# Signals and their handlers beside doors.
# Read by tests/c.sh, which has the words that the cases use.

case_actions_in_calls() {
    run actions -b 'actions=1,2,0'
    gives 'done'
}

case_rain_of_signals() {
    run 'up serve w; doorwait w; rain 1 10000' -b 'serve=1,10,0' -b 'rain=12,0,0'
    gives 'done'
}

case_handlers_leave() {
    run leaves -b 'leaves=6,2,0'
    gives 'done'
}

# Descriptors and bytes that came with the results of a call are closed where a handler jumps away from them, at the thread's next request or
# its end, and in a child that a handler forks; they are there where it comes back.
case_results_that_a_handler_leaves() {
    run 'up abandons serve w; doorwait w; abandons call w 100' -b 'abandons=2,1,0' -b 'abandons=3,0,0'
    gives 'done'
    run 'up abandons serve w; doorwait w; abandons call w 100 long' --long -b 'abandons=2,1,0' -b 'abandons=3,0,0'
    gives 'done'
}

case_deeds_of_handlers() {
    run 'up serve w other; doorwait other; deeds & pid=$!; seen "= enter c1 "; touch now; wait $pid' -b 'deeds=3,0,0'
    gives 'call: EINTR' 'done'
}

# SIGHUP makes the server read its file again, and SIGTERM ends it; the path is free afterwards
for_shutdown='
turn() {
    printf "$2" >text
    shutdown "$1" "door_$1" & server=$!
    doorwait "door_$1"
    ask "door_$1" first
    printf again >text
    kill -HUP $server
    looks=0
    until [ "$(ask "door_$1" next)" = "next: again" ] || [ $looks -eq 500 ]; do looks=$((looks + 1)); done
    kill -TERM $server
    wait $server
    echo "$1: $?"
    serve "door_$1" & serving="$serving $!"
    doorwait "door_$1"
    ask "door_$1" "echo other"
}
'

case_clean_shutdown() {
    run "$for_shutdown turn handler a; turn flag b; turn ppoll c"
    gives 'first: a' 'handler: 6' 'echo other: other' 'first: b' 'flag: 6' 'echo other: other' 'first: c' 'ppoll: 6' 'echo other: other'
}

case_waits_for_signals() {
    run "$for_shutdown turn sigwait a; turn info b; turn signalfd c"
    gives 'first: a' 'sigwait: 6' 'echo other: other' 'first: b' 'info: 6' 'echo other: other' 'first: c' 'signalfd: 6' 'echo other: other'
}

case_masks_in_calls() {
    run 'up serve w; doorwait w; masks & pid=$!; seen "= enter c1 "; kill -USR1 $pid; touch go; seen "= enter c3 "; kill -USR2 $pid; wait $pid; touch gone'
    gives 'call: ok' 'call: EINTR' 'done'
}

# Stopped where they are, and continued: a client whose call a thread has, one whose call waits, a server that waits, one in a procedure, and
# one in a call of its own.
case_stop_and_continue() {
    run 'up serve -p 1 one - w; doorwait w; ask one "hold go a" & a=$!; seen "= enter c1 "; ask one "echo b" & b=$!; seen "= wait c2"
        kill -STOP $a $b; touch go; seen "return .b. = wait"; kill -CONT $b; kill -CONT $a; wait $a $b'
    gives_sorted 'hold go a: a' 'echo b: b'
    run 'up serve w; s=$!; up serve v; doorwait w; doorwait v; kill -STOP $s; ask w "echo a" & a=$!; seen "call .*echo a"; kill -CONT $s; wait $a
        ask w "hold go b" & b=$!; seen "= enter c2 "; kill -STOP $s; touch go; kill -CONT $s; wait $b
        ask w "call v hold on c" & c=$!; seen "= enter c4 "; kill -STOP $s; touch on; seen "return .c. = wait"; kill -CONT $s; wait $c'
    gives 'echo a: a' 'hold go b: b' 'call v hold on c: c'
}

# A handler, in a thread that waits for calls, calls a door of its own process: another thread waits in its place until the handler has
# ended, and serves nobody any more.
for_itself='
itself() {
    command itself "$@" & server=$!
    serving="$serving $server"
    doorwait itself
    seen "return \"\" = wait" $threads
    kill -USR1 $server
}
'

case_handler_calls_itself() {
    run "$for_itself threads=1; itself 1 who passed large who; held handled; ask itself who" -b 'itself=2,0,0'
    gives 'handler: who: another' 'handler: passed: another' 'handler: large: another' 'handler: who: another' 'who: main'
    says 'libdoor: E2BIG: a message of this kernel has at most 4,096 bytes; doord --long takes more'
    run "$for_itself threads=1; itself -p 1 who again; held handled; ask itself who" -b 'itself=3,0,0'
    gives 'handler: who: another' 'inner: who: another' 'handler: who: another' 'who: main'
    run "$for_itself threads=1; itself 1 fall who; held handled; ask itself who" -b 'itself=3,0,0'
    gives 'handler: fall: EINTR' 'handler: who: another' 'who: main'
}

# The call comes to the thread's own wait by way of another one. Both threads wait again.
case_handler_calls_its_pool() {
    run "$for_itself threads=2; itself 2 nest who; held handled
        ask itself 'hold a' >said_a & a=\$!; held a_held; ask itself 'hold b' >said_b & b=\$!; held b_held; touch a b; wait \$a \$b
        sed 's/.*://' said_a said_b" -b 'itself=3,0,0'
    gives_sorted 'handler: nest: another' 'handler: who: another' ' another' ' main'
}

# A client is served as the handler ends, and another one waits: that one comes to the thread itself.
case_handler_ends_while_one_is_served() {
    run "$for_itself threads=1; itself 1 'hold gate' 'stay on_held'; held gate_held; ask itself 'hold on' & a=\$!; seen '= wait c2'; touch gate
        held handled; ask itself who & b=\$!; seen '= wait c3'; touch on; wait \$a \$b" -b 'itself=2,0,0'
    gives_sorted 'handler: hold gate: another' 'hold on: another' 'who: main'
}

# The wait stays with who has it, and the thread can wait again.
case_handler_calls_and_leaves() {
    run "$for_itself threads=1; itself -l 1 who; held handled; seen 'return \"\" = wait' 2
        ask itself 'hold a' >said_a & a=\$!; held a_held; ask itself 'hold b' >said_b & b=\$!; held b_held; touch a b; wait \$a \$b
        sed 's/.*://' said_a said_b" -b 'itself=3,0,0'
    gives_sorted 'handler: who: another' 'main: who: another' ' another' ' main'
}
