# Follows timers on their clock: which ports an `advance` tells, and whether the events of timers that are taken fit the script.
#
# Of timer n, by the order of making: timer_process[n], timer_id[n], timer_port[n], timer_user[n]; next_moment[n] and interval[n]
# where it is armed; counted[n], the count of its queued event. timer_of[p, id]: which timer it is. clock_at[i]: after an advance.

function follow_timers(i, t, what,    p) {
    p = thread_process[t]
    if (what == "tcreate") make_timer(i, t, p)
    else if (what == "tset") set_timer(timer_of[p, operand(t, 2)], operand(t, 3) + 0, operand(t, 4) + 0)
    else if (what == "tdelete") end_timer(timer_of[p, operand(t, 2)])
    else if (what == "advance") follow_advance(i, operand(t, 2))
}

function make_timer(i, t, p) {
    timer_of[p, word[2]] = ++timers
    timer_process[timers] = p
    timer_id[timers] = word[2]
    timer_port[timers] = object_of(t, operand(t, 2))
    timer_user[timers] = operand(t, 3)
    label[i] = "tcreate " operand(t, 3) ": timer " word[2]
}

function set_timer(n, first, each) {
    delete counted[n]
    delete next_moment[n]
    if (first) next_moment[n] = clock + first
    interval[n] = each
}

function end_timer(n) {
    set_timer(n, 0, 0)
    delete timer_port[n]
}

function end_timers(p,    n) {
    for (n = 1; n <= timers; n++) if (timer_process[n] == p) end_timer(n)
}

function follow_advance(i, by,    n) {
    clock_at[i] = clock += by
    for (n = 1; n <= timers; n++) {
        if (!(n in next_moment) || next_moment[n] > clock) continue
        count_moments(n)
        point_to(i, "port", timer_port[n] "")
    }
}

function count_moments(n,    more) {
    more = interval[n] ? int((clock - next_moment[n]) / interval[n]) + 1 : 1
    counted[n] += more
    if (interval[n]) next_moment[n] += more * interval[n]
    else delete next_moment[n]
}

# Those in an answer, which stands in word[2] .. word[n], of this port.
function take_timers(port, n,    k) {
    for (k = 2; k <= n; k++) if (word[k] ~ /^timer:/ && port != "") take_timer(port, word[k])
}

function take_timer(port, event,    n, part) {
    split(event, part, ":")
    for (n = 1; n <= timers; n++) {
        if (!(n in timer_port) || timer_port[n] != port || timer_id[n] != part[2] || timer_user[n] != part[4]) continue
        if (!(n in counted) || counted[n] "" != part[3]) continue
        delete counted[n]
        return
    }
    bad_trace("no timer of the script has `" event "` queued there")
}
