# Doors, calls, signals and server threads.
# Read by tests/c.sh, which has the words that the cases use.

case_which_thread_serves() {
    run 'up serve w; doorwait w; for i in 1 2 3; do ask w thread; done | sed "s/[1-4]$/N/"'
    gives 'thread: thread N' 'thread: thread N' 'thread: thread N'
}

case_info() {
    run info
    gives 'done'
}

case_credentials() {
    run 'up serve w; doorwait w; sh -c "echo \$\$; exec ask w cred" >client; { read -r pid; read -r line; } <client
        echo "$line" | sed "s/pid $pid /pid is right /"; creds'
    user=$(id -u) group=$(id -g)
    gives "cred: pid is right euid $user egid $group ruid $user rgid $group" 'done'
}

case_ucred() {
    run 'ucreds w & pid=$!; doorwait w; ask w x; touch asked; wait $pid; grep -c " cred = ok process " "$HISTORY"'
    gives 'x: ok' 'done' 6
}

case_descriptors() {
    run pass
    gives 'done'
    says_like 'libdoor: .*16 descriptors'
}

case_files_by_many_threads() {
    run 'files 6 40' -b 'files=7,4,0' -b 'files=7,4,0'
    gives 'done'
}

case_no_room_for_descriptors() {
    run 'mkdir f; echo hello >f/a; up fileserver fs f; doorwait fs; full fs a; fileclient fs a'
    gives 'done' hello
    may_say 'libdoor: EMFILE'
}

case_pipes_of_calls_that_nobody_takes() {
    run 'up serve -p 1 one two - w -r refuse; doorwait refuse; ask one "echo ready"; ask two "echo ready"; ask one "hold go a" & ask two "hold go b" &
        seen "= enter c4"; ends; touch go' -b 'serve=3,4,0'
    gives_sorted 'done' 'echo ready: ready' 'echo ready: ready' 'hold go a: EINTR' 'hold go b: EINTR'
}

case_server_threads_end() {
    run 'up serve w other; doorwait other; ask w exit fall exit "echo x"; ask other "echo y"'
    gives 'exit: EINTR' 'fall: EINTR' 'exit: EINTR' 'echo x: x' 'echo y: y'
}

# the pool of one thread: its end leaves a call that nobody takes, which an alarm ends
case_last_server_thread_ends() {
    run 'up serve w; doorwait w; ask w exit; ask -h sigaction -a 1 w "echo x" & x=$!; ask -h sigaction -a 1 w "echo y"; wait $x' -b 'serve=2,1,0'
    gives_sorted 'exit: EINTR' 'echo x: EINTR' 'echo y: EINTR' 'handled 1' 'handled 1'
    says_like 'doord: serve: a call waits, and no server thread is left; -b serve='
}

case_server_ends_in_a_call() {
    run 'up serve w; pid=$!; doorwait w; ask w "quit 7" "echo x"; wait $pid; echo "serve: $?"'
    gives 'quit 7: EINTR' 'echo x: EBADF' 'serve: 7'
    run 'up serve w; pid=$!; doorwait w; ask w crash "echo x"; wait $pid; echo "serve: $?"'
    gives 'crash: EINTR' 'echo x: EBADF' 'serve: 137'
    # some shells tell of it
    may_say '^Killed'
}

case_alarms() {
    run 'up serve w -p 1 one; doorwait one; ask one "hold go a" & seen "enter c1"
        ask -h signal -a 1 w "hold go b" & b=$!
        ask -h sigaction -a 1 w "hold go c" & c=$!
        ask -h signal -a 1 one "echo d" & d=$!
        ask -h sigaction -a 1 one "echo e" & e=$!
        wait $b $c $d $e; touch go; seen "collect = ok"'
    gives_sorted 'hold go a: a' 'hold go b: EINTR' 'hold go c: EINTR' 'echo d: EINTR' 'echo e: EINTR' 'handled 1' 'handled 1' 'handled 1' 'handled 1'
}

case_handlers_make_calls() {
    run 'up serve w other; doorwait other; signals calls & pid=$!; seen "accept = enter c1"; kill -USR1 $pid; wait $pid; touch go'
    gives 'handler: from the handler' 'call: EINTR' 'call: ok' 'done'
}

case_handlers_jump() {
    run 'up serve w; doorwait w; signals jumps' -b 'serve=2,8,0'
    gives 'left 30' 'done'
}

case_many_signals() {
    run 'up serve w; doorwait w; signals storm; signals restart; signals threads' -b 'serve=2,8,0' -b 'signals=5,0,0'
    gives 'done' 'done' 'done'
}

case_signals_in_requests() {
    run 'up serve w; doorwait w; signals requests' -b 'serve=2,8,0'
    gives 'done'
}

case_signal_that_is_blocked() {
    run 'up serve w; doorwait w; signals blocked & pid=$!; seen "= enter c1"; kill -USR1 $pid; sleep 0.2; touch go; wait $pid'
    gives 'call: ok' 'done'
}

case_faults() {
    run 'up signals faults; doorwait faulty; ask faulty x y z'
    gives 'x: fault' 'y: fault' 'z: fault'
}

case_cancelled() {
    run 'up serve w; doorwait w; cancel & pid=$!; held in_first; seen "= enter c1"; touch first; held in_second; seen "= enter c3"; touch second; wait $pid'
    gives 'done'
}

case_handler_of_a_server_thread() {
    run 'up signals server; pid=$!; doorwait served; ask served x; kill -USR1 $pid; ask served y; kill -TERM $pid; wait $pid; echo "status $?"
        ask served z'
    gives 'x: ok' 'y: ok' 'status 6' 'z: EBADF'
}

case_handler_ends_a_server_thread() {
    run 'up signals server; pid=$!; doorwait served; ask served x; kill -USR2 $pid; sleep 0.2; ask served y; kill -USR2 $pid; sleep 0.2; ask served z; kill -9 $pid'
    gives 'x: ok' 'y: ok' 'z: ok'
}

case_handlers_as_they_were() {
    run 'up serve w; doorwait w; handlers' -b 'handlers=2,0,1'
    gives 'done'
}

case_unreferenced() {
    run 'up serve -u a - w; doorwait w; ask -k go a "echo x" & seen "return .x."; ask w "detach a"; touch go; seen "enter n1"; ask w "echo y"'
    gives_sorted 'echo x: x' 'detach a: ok' 'a unreferenced' 'echo y: y'
}

case_unreferenced_by_a_kill() {
    run 'up serve -m a - w; doorwait w; ask -k go a "echo x" & pid=$!; seen "return .x."; ask w "detach a"; kill -9 $pid; seen "enter n1"; ask w "echo y"'
    gives_sorted 'echo x: x' 'detach a: ok' 'a unreferenced' 'echo y: y'
}

case_references() {
    run refs -b 'refs=2,1,0'
    gives 'done'
}

case_attributes() {
    run 'up serve -r r - -c c - w; doorwait w; ask r "echo a"; ask c "echo b"'
    gives 'echo a: a' 'echo b: b'
}

case_private_door() {
    run bind -b 'bind=2,1,0'
    gives own own other own own own other EBADF
}

case_pool_that_grows() {
    run 'up grow g; doorwait g; for i in 1 2 3; do ask g go & seen "= enter c$i"; done; touch go; seen "collect = ok" 3' \
        -b 'grow=6,0,0'
    gives_sorted 'thread 1' 'thread 2' 'thread 3' 'thread 4' 'go: ok' 'go: ok' 'go: ok'
}

case_common_pool_by_a_function() {
    run 'up common g; doorwait g; for i in 1 2 3; do ask g go & seen "= enter c$i"; done; touch go; seen "collect = ok" 3'
    gives_sorted 'a thread' 'a thread' 'a thread' 'a thread' 'go: ok' 'go: ok' 'go: ok'
}

case_nested_calls() {
    run 'up serve a; up serve b; up serve c; doorwait a; doorwait b; doorwait c; ask a "call b call c call a echo back" "call b call missing x"'
    gives 'call b call c call a echo back: back' 'call b call missing x: ENOENT'
}

# A procedure that calls its own pool takes another thread each time, and a new one starts for the next.
case_calls_of_itself() {
    run 'up serve a; doorwait a; ask a "call a call a call a call a call a call a echo deep"; ask a "echo x"' -b 'serve=2,8,0'
    gives 'call a call a call a call a call a call a echo deep: deep' 'echo x: x'
}

case_sizes() {
    run sizes
    gives 'done'
    says_like 'libdoor: .*4,?096' 2
}

case_parameters() {
    run params
    gives 'done'
    may_say 'libdoor: .*(4,?096|16)'
}

case_revoke_in_a_call() {
    run 'up serve -p 1 one - w; doorwait one; doorwait w; ask one "echo ready"; ask one "hold go a" & a=$!; seen "enter c2"
        ask one "echo b" & b=$!; seen "= wait c3"; ask -k done one & ask w "revoke 1"; wait $b; touch go; wait $a; ask one "echo c"; touch done'
    gives_sorted 'echo ready: ready' 'revoke 1: ok' 'echo b: EBADF' 'hold go a: a' 'door_return: EINVAL' 'echo c: EBADF'
}

case_revoke_by_its_own_procedure() {
    run 'up serve w; doorwait w; ask w "revoke 1" "echo x"'
    gives 'revoke 1: ok' 'echo x: EBADF'
}
