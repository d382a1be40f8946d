# Processes: fork, exec, daemons, and what a program closes.
# Read by tests/c.sh, which has the words that the cases use.

case_forks() {
    run 'up serve w; doorwait w; forks 2' -b 'forks=2,0,2'
    gives 'child without: ok' 'parent: ok' 'child with: ok' 'child with: ok' 'parent: ok'
}

# A client's child has dead doors then, and may have its own. One that made a door does not fork, nor does one that would be a daemon.
case_forks_without_a_child_in_store() {
    run 'up serve w; doorwait w; forks 1'
    gives 'child without: ok' 'parent: ok' 'child with: EBADF' 'parent: ok'
    says_like 'libdoor: EBADF: .*-b PROGRAM='
    run 'up serve w; doorwait w; forks 2' -b 'forks=2,0,1'
    gives 'child without: ok' 'parent: ok' 'child with: ok' 'child with: EBADF' 'parent: ok'
    says_like 'libdoor: EBADF: .*-b PROGRAM='
    run 'up serve w; doorwait w; heirs client; heirs server'
    gives 'client: done' 'server: done'
    says 'doord: heirs: EAGAIN: all children for forks that it has are in use; -b heirs=THREADS,SPARES,CHILDREN gives it more' \
        'libdoor: EBADF: the doors of a program are in its forked child where doord has a child in store for it: doord -b PROGRAM=THREADS,SPARES,CHILDREN'
}

# Calls of other threads go on, or end with EINTR.
case_forks_among_calls() {
    run 'up serve w; doorwait w; heirs among' -b 'serve=1,4,0' -b 'heirs=5,0,3'
    gives 'among: done'
    says_like 'libdoor: EBADF: .*-b PROGRAM=' 2
}

# The first child has its parent's doors, and the second, for which none is in store, says so at its terminal.
case_forks_past_the_library() {
    run 'up serve w; doorwait w; heirs pty' -b 'heirs=2,0,1'
    gives 'pty: done'
}

# A shell, and what it pipes into, with a door at one of its descriptors.
case_shell_with_a_door() {
    run 'up serve w; doorwait w; sh -c "exec 3<>w; echo a | cat; x=\$(echo b); echo \$x; (echo c); cat </dev/null & wait"'
    gives a b c
}

case_forks_of_a_server() {
    run daemon -b 'daemon=3,4,2'
    gives_sorted 'other thread: EINTR' 'child: ok' 'child in a procedure: ok' 'parent: EINTR'
}

# Two threads make the process's first requests while a third forks.
case_first_requests() {
    run 'up serve w; doorwait w; firsts 60' -b 'serve=2,6,0'
    gives 'done'
    may_say 'doord: firsts.*-b firsts='
}

# what is made and closed between the kernel's fork and the system's
case_doors_while_it_forks() {
    run between -b 'between=2,3,1'
    gives 'done'
}

case_exec() {
    run 'up serve w; doorwait w; becomes ask w "echo x" "pid" | sed "s/pid: [0-9]*/pid: N/"'
    gives 'echo x: x' 'pid: N'
    run 'up serve w; doorwait w; becomes ask gone "echo x"; ask w "detach gone" >f; becomes sh -c "ls /proc/self/fd | wc -l"; sh -c "ls /proc/self/fd | wc -l"'
    sed -n 3p "$work/out" >"$work/count"
    gives 'echo x: EBADF' "$(cat "$work/count")" "$(cat "$work/count")"
}

case_exec_keeps_a_reference() {
    run 'up serve -m a - w; doorwait w; becomes -k a sleep 1000 & sleeps=$!; seen "return .x."; ask w "detach a"; seen "= enter n1"; kill $sleeps; ask w "echo x"'
    gives_sorted 'detach a: ok' 'a unreferenced' 'echo x: x'
}

case_other_programs() {
    run 'up serve w; doorwait w; shells'
    gives 'done'
}

case_clones() {
    run 'up serve w; doorwait w; clones'
    gives 'done'
    may_say '^libdoor: '
}

case_helper_thread() {
    run 'up helper h; pid=$!; doorwait h; ask h echo; ask h echo; ask h "quit 1234"; wait $pid; echo "helper: $?"'
    gives 'echo: served' 'echo: served' 'quit 1234: EINTR' 'helper: 5'
}

case_before_and_after_main() {
    run 'up begins b; pid=$!; doorwait b; ask b x; touch end; wait $pid; echo "begins: $?"; ask b y'
    gives 'x: ok' detached destructor 'begins: 4' 'y: EBADF'
}

case_daemon() {
    run 'detached serve w; doorwait w; ask w "echo x"; kill $(ask w pid | sed "s/.* //")'
    gives 'echo x: x'
}

# daemon(3) and a double fork before doors are made, and daemon(3) after it: the door is the parent's, and ends with it.
case_daemons() {
    run 'heirs before b; doorwait b; ask b x; heirs double d; doorwait d; ask d x; touch end' -b 'heirs=2,2,0'
    gives 'x: before' 'x: double'
    run 'heirs after a; doorwait a; ask a x; touch end' -b 'heirs=2,2,1'
    gives 'the door of the parent: EBADF' 'x: after'
}

# hundreds of programs, one after the other, each in a session of its own
case_hundreds_of_programs() {
    run 'up serve w; doorwait w; i=0; while [ $i -lt 150 ]; do setsid ask w "echo $i"; ask w "echo $i" | cat; i=$((i + 1)); done | uniq -c | wc -l'
    gives 150
}

# Each uses up a process of the kernel. Nine may come, and where clients come too, eight: before that is said what helps.
case_servers_one_after_the_other() {
    run 'i=0; while [ $i -lt 9 ]; do i=$((i + 1)); serve w & seen " attach " $i; kill $!; wait $! 2>/dev/null; seen "init kill" $i; rm w; done; serve w'
    ends 3
    gives 'door_create: EAGAIN'
    says_like "doord: (7 processes of the kernel are used up .*, and 2 are left; -b '\*=1,1,0' .*|serve: EAGAIN: no process .* \(9 are used up .*\))$" 2
    run 'i=0; while [ $i -lt 20 ]; do i=$((i + 1)); serve w & doorwait w; ask w "echo $i"; kill $!; wait $! 2>/dev/null; seen "init kill" $i; rm w; done' -b '*=1,1,0'
    [ "$(wc -l <"$work/out")" -eq 20 ] || wrong "output" "20 lines" "$(cat "$work/out")"
    says_like 'doord: 19 processes of the kernel are used up .*, and 2 are left'
}

case_main_serves() {
    run 'up helper h main; pid=$!; doorwait h; ask -n 200 h echo; ask h "quit 1234"; wait $pid; echo "helper: $?"'
    gives '200 ok' 'quit 1234: EINTR' 'helper: 5'
}

case_closes() {
    run 'up serve w; doorwait w; closes'
    gives 'done'
}

case_closes_all() {
    run 'up serve w; doorwait w; closes all; [ $? -ne 0 ] && echo ended; ask w "echo x"'
    gives ended 'echo x: x'
    says_like 'libdoor: ' 2
}

case_forks_of_bound_threads() {
    run bound -b 'bound=5,0,2'
    gives 'done'
}
