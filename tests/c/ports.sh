# Event ports: what is sent, who waits, and how a wait ends.
# Read by tests/c.sh, which has the words that the cases use.

case_ports() {
    run ports
    gives 'done'
    says 'libdoor: ENOTSUP: port_getn waits for at most 64 events at once'
}

case_ports_closed() {
    run 'ports close & seen "get 0 = wait"; touch go; wait'
    gives 'done'
}

case_ports_and_signals() {
    run 'ports signal & p=$!; seen "get 0 = wait"; kill -USR1 $p; seen "getn 0 .* = wait"; kill -USR1 $p; wait'
    gives 'done'
}

case_ports_passed() {
    run 'ports pass'
    gives 'done'
}

# who is killed at a port leaves his place to others
case_ports_killed() {
    run 'for i in 1 2 3; do ports close & p=$!; seen "get 0 = wait" $i; kill -9 $p; wait $p; done 2>/dev/null; ports' -b '*=2,0,0' -b '*=60,0,0'
    gives 'done'
    says 'libdoor: ENOTSUP: port_getn waits for at most 64 events at once'
}

# descriptors that are associated with ports

case_sources() {
    run sources
    gives 'done'
    says 'libdoor: ENOTSUP: PORT_SOURCE_FILE is not built; PORT_SOURCE_FD is'
    run sources -b 'sources=2,0,1'
    gives 'done'
    says 'libdoor: ENOTSUP: PORT_SOURCE_FILE is not built; PORT_SOURCE_FD is'
}

case_sources_waited_for() {
    run 'sources wait & seen "get 0 = wait"; touch go; wait'
    gives 'done'
}

case_many_sources() {
    run 'sources many'
    gives 'done'
    says 'doord: sources: EAGAIN: a descriptor that is associated with a port takes two of the 256 that a process has for doors'
}

# a loop as those of event libraries
case_event_loop() {
    run 'event_loop 200'
    gives 'done'
    [ $events -ge 2000 ] || wrong "events" "2000 at least" "$events"
}
