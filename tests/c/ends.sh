# Ends of servers and clients in the middle of a call.
# Read by tests/c.sh, which has the words that the cases use.

case_server_killed() {
    run 'up serve -p 1 w; server=$!; doorwait w; ask w "echo ready"; ask w "hold go a" & seen "enter c2"; ask w "echo b" & seen "= wait c3"
        kill -9 $server; wait'
    gives_sorted 'echo ready: ready' 'hold go a: EINTR' 'echo b: EBADF'
}

case_server_killed_in_a_nested_call() {
    run 'up serve a; first=$!; up serve b; doorwait a; doorwait b; ask a "call b hold go x" & asks=$!; seen "enter c2"; kill -9 $first; wait $asks
        touch go; ask b "echo y"'
    gives 'call b hold go x: EINTR' 'echo y: y'
    run 'up serve a; up serve b; second=$!; doorwait a; doorwait b; ask a "call b hold go x" & asks=$!; seen "enter c2"; kill -9 $second; wait $asks
        ask a "call b echo y"'
    gives 'call b hold go x: EINTR' 'call b echo y: EBADF'
}

case_results_before_a_kill() {
    run 'up serve w; server=$!; doorwait w; ask w "hold go x" & asks=$!; seen "enter c1"; kill -STOP $asks; touch go; seen "return .x."
        kill -9 $server; seen "kill serve"; kill -CONT $asks; wait'
    gives 'hold go x: x'
}

case_client_killed() {
    run 'up serve w; doorwait w; ask w "say go goes on" & asks=$!; seen "enter c1"; kill -9 $asks; wait $asks 2>/dev/null
        touch go; seen "return .goes on"; ask w "echo x"'
    gives 'goes on' 'echo x: x'
    run 'up serve -p 1 w; doorwait w; ask w "echo ready"; ask w "hold go a" & a=$!; seen "enter c2"; ask w "say go b" & b=$!; seen "= wait c3"; kill -9 $b
        wait $b 2>/dev/null; touch go; wait $a; ask w "echo x"'
    gives 'echo ready: ready' 'hold go a: a' 'echo x: x'
}

case_stopped_client() {
    run 'up serve w; doorwait w; ask w "hold go x" & asks=$!; seen "enter c1"; kill -STOP $asks; touch go; ask -n 100 w "echo y"; kill -CONT $asks; wait $asks'
    gives '100 ok' 'hold go x: x'
}

case_stopped_server() {
    run 'up serve w; server=$!; up serve v; doorwait w; doorwait v; kill -STOP $server; ask w "echo x" & asks=$!; seen "call 0"; ask v "echo y"; kill -CONT $server
        wait $asks'
    gives 'echo y: y' 'echo x: x'
}

case_server_comes_again() {
    run 'up serve w; doorwait w; kill -9 $!; wait $! 2>/dev/null; seen "kill serve"; ask w "echo x"; rm w; up serve w; seen "attach" 2; ask w "echo y"'
    gives 'echo x: EBADF' 'echo y: y'
}
