# Stalls: programs wait for each other in calls, and nobody ends that. And what is none.
# Read by tests/c.sh, which has the words that the cases use.

# ends_stalled END PATTERN: doord ends with 124, says so and no more than lines as the pattern, and leaves a legal history with this last
# line, but for the number of its events.
ends_stalled() {
    wait "$running" 2>/dev/null
    status=$?
    swept
    ends 124
    says_like "^doord: stall: $2|^libdoor: doord is gone$" 9
    "$DOORLAB" history "$work/history" >"$work/verdict" 2>&1 || wrong "the history" "legal N" "$(cat "$work/verdict")"
    last=$(tail -n 1 "$work/history" | sed 's/ [0-9][0-9]*\( \|$\)/ N\1/')
    [ "$last" = "$1" ] || wrong "the last line" "$1" "$last"
    grep '^# stall: ' "$work/history" | sed 's/^#/doord:/' >"$work/told"
    grep '^doord: ' "$work/err" | cmp -s - "$work/told" || wrong "the remarks" "$(cat "$work/err")" "$(cat "$work/told")"
    [ -z "$(ls -A "$work/t")" ] || wrong "the socket's folder" "nothing of it is left" "$(ls -A "$work/t")"
}

# two servers of one thread each, of which each calls the other; the client is read by a shell, and does not listen to SIGTERM
case_stall() {
    start 'serve -p 1 a & first=$!; doorwait a; serve -p 1 b & doorwait b; echo $first $! >pids
        ask a "echo ready"; (trap "" TERM; exec ask a "call b call a echo x") & wait $!; echo "ask: $?"' --patience 0.3
    ends_stalled 'end stalled N serve_2 serve2_2 ask_1' \
        '(programs wait in calls, .*|(ask_1|serve_2) \(pid [0-9]*\) waits in a call of /.*/[ab]: serve2?_2 \(pid [0-9]*\) has it, and waits in a call itself|serve2_2 \(pid [0-9]*\) waits in a call of /.*/a: no thread has taken it)$'
    [ "$(grep -c '^doord: ' "$work/err")" -eq 4 ] || wrong "the error stream" "4 lines of doord" "$(cat "$work/err")"
    read -r first second <"$work/d/pids"
    for pid in $first $second; do
        [ ! -e "/proc/$pid" ] || wrong "the programs" "they have ended" "$pid is there"
    done
    gives 'echo ready: ready'
}

# a procedure sleeps: to the kernel its thread runs
case_stall_in_a_procedure() {
    for how in lock pause read; do
        start "sleeps s & doorwait s; ask s ''; x=\$(ask s $how); echo \"ask: \$x\"" --patience 0.2
        ends_stalled 'end open N' '(programs wait in calls, .*|ask_1 \(pid [0-9]*\) waits in a call of /.*/s: sleeps_s[12] \(pid [0-9]*\) has it, and sleeps in its procedure)$'
        gives ': awake'
    done
}

# What COMMAND left is waited for by --stay, but not where it has stalled.
case_stall_of_what_is_left() {
    start 'trap - EXIT; sleeps s & doorwait s; ask s lock & seen "enter c1"' --stay --patience 0.2
    ends_stalled 'end open N' '(programs wait in calls, .*|ask_1 .* has it, and sleeps in its procedure)$'
}

# No stall is where somebody comes back by himself, or somebody outside can do something: an alarm is set, by a client, or in a
# procedure of a server of which no thread waits; timeout(1) waits, a program is stopped, one reads what comes from outside, or nobody waits in a call. These doords stand side by side, each for longer than a stall takes.
case_no_stall() {
    run 'one() { name=$1; shift; doord --patience 0.2 -o "h$name" -- sh -c "$@"; echo "$name: $?"; }
        begin="sleeps s\$0 & pid=\$!; doorwait s\$0;"
        one alarm "$begin ask -h sigaction -a 3 s\$0 lock; kill \$pid" alarm &
        one procedure "sleeps -p s\$0 & doorwait s\$0; ask s\$0 alarm; kill \$!" procedure &
        one timer "$begin timeout 3 ask s\$0 lock; echo \$?; kill \$pid" timer &
        one stopped "$begin kill -STOP \$pid; echo \$pid >stopped; ask s\$0 stopped; kill \$pid" stopped &
        sleep 3 | one reads "$begin ask s\$0 lock & asks=\$!; read none; kill \$asks \$pid" reads &
        one server "echo \$\$ >server; trap \"exit 7\" USR1; sleeps sserver & wait \$!" &
        held stopped; held server; sleep 3; kill -CONT $(cat stopped); kill -USR1 $(cat server); wait'
    gives_sorted 'lock: EINTR' 'handled 1' 'alarm: 0' 'alarm: awake' 'procedure: 0' 124 'timer: 0' 'stopped: awake' 'stopped: 0' 'reads: 0' 'server: 7'
    says_like 'doord: sh has ended: SIGTERM to what it left'
    for file in alarm procedure timer stopped reads server; do
        legal "$work/d/h$file"
    done
}
