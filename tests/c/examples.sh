# The programs of c/examples, as a user runs them.
# Read by tests/c.sh, which has the words that the cases use.

case_square() {
    run 'up server sq; doorwait sq; client sq 9; client sq -3; client sq 46341'
    gives 'result: 81' 'result: 9' 'result: 2147488281'
}

case_plain_file() {
    run 'echo text >plain; client plain 9; client missing 9; cat plain'
    gives text
    says 'door_call: Bad file descriptor' 'missing: No such file or directory'
}

case_named() {
    run 'up named names admin; pid=$!; doorwait names; doorwait admin
        lookup names root www nobody
        ask -k go names mail & keeper=$!; seen "return .192.0.2.25"
        named_admin admin; kill -0 $pid && echo there; lookup names root; touch go; wait $pid; echo "named: $?"; wait $keeper'
    gives_sorted 'root 198.41.0.4' 'www 192.0.2.80' 'nobody unknown' 'mail: 192.0.2.25' 'no new clients' there 'named: 0'
    says 'root: Bad file descriptor'
}

# with no client left it ends at once: before it answers the administrator, or after
case_named_without_clients() {
    run 'up named names admin; pid=$!; doorwait admin; named_admin admin; wait $pid; echo "named: $?"'
    sed 's/^named has ended$/no new clients/' "$work/out" >"$work/either" && mv "$work/either" "$work/out"
    gives 'no new clients' 'named: 0'
}

case_files() {
    run 'mkdir f; echo hello >f/a; seq 1 5000 >f/long; up fileserver fs f; doorwait fs; fileclient fs a; fileclient fs long | cksum; cksum <f/long
        fileclient fs missing; fileclient fs ../a; fileclient fs ""; true'
    sed -n 2p "$work/out" >"$work/sum"
    gives hello "$(cat "$work/sum")" "$(cat "$work/sum")"
    says 'missing: No such file or directory' '../a: Invalid argument' ': Invalid argument'
}

case_counter() {
    run 'up counter c; doorwait c; adder c 50'
    gives 50
    run 'up counter c; doorwait c; adder c 50 & adder c 50; wait $!; adder c 0'
    last=$(tail -n 1 "$work/out")
    [ "$last" -ge 50 ] && [ "$last" -le 100 ] || wrong "the counter" "50 to 100" "$last"
}

case_pool() {
    run 'up pool p 3; doorwait p; for i in 1 2 3 4 5; do client p 7 & clients="$clients $!"; done; client p 8; wait $clients' -b 'pool=4,0,0'
    sed '/^thread [23]$/d' "$work/out" >"$work/either" && mv "$work/either" "$work/out"
    gives_sorted 'thread 1' 'result: 49' 'result: 49' 'result: 49' 'result: 49' 'result: 49' 'result: 64'
}

# Threads that the kernel has no room for serve nobody, and are told so.
case_pool_with_too_few_threads() {
    run 'up pool p 3; doorwait p; client p 7 & client p 8; wait $!'
    sed '/^thread [123]$/d' "$work/out" >"$work/either" && mv "$work/either" "$work/out"
    gives_sorted 'result: 49' 'result: 64'
    says_like 'door_bind: Resource temporarily unavailable|doord: pool.*-b pool=' 3
}
