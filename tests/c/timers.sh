# Timers that tell ports.
# Read by tests/c.sh, which has the words that the cases use.

case_timers() {
    run timers
    gives 'done'
}

# a program's timers end with it, and its place is lent on
case_timers_left() {
    run 'for i in 1 2 3; do timers armed; done; timers' -b '*=2,0,0' -b '*=60,0,0'
    gives 'done'
}
