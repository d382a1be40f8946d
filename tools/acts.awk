# What an event that succeeds does to descriptors, paths, threads and processes.

function follow_done(i, t, what, n,    k) {
    if (what == "create") {
        open_fd(t, word[3], "d" ++doors)
        door_procedure["d" doors] = operand(t, 3)
        door_process["d" doors] = thread_process[t]
        door_cookie["d" doors] = operand(t, 4)
        set_variable(t, operand(t, 2), word[3])
    } else if (what == "open") give(t, at_path[operand(t, 3)] "")
    else if (what == "dup") give(t, object_of(t, operand(t, 3)))
    else if (what == "pcreate") give(t, "p" ++ports)
    else if (what == "pipe") {
        pipes++
        open_fd(t, word[3], "r" pipes)
        open_fd(t, word[4], "w" pipes)
        set_variable(t, operand(t, 2), word[3])
        set_variable(t, operand(t, 3), word[4])
    } else if (what == "read" || what == "done" || what == "ncd") set_variable(t, operand(t, 2), "")
    else if (what == "close" || what == "revoke") close_fd(t, descriptor(t, operand(t, 2)))
    else if (what == "attach") follow_attach(i, t, operand(t, 3))
    else if (what == "detach") delete at_path[operand(t, 2)]
    else if (what == "send" || (what == "alert" && operand(t, 4) != "0")) point_to(i, "port", object_of(t, operand(t, 2)))
    else if (what == "sendn") for (k = 4; k <= operands(t); k++) point_to(i, "port", object_of(t, operand(t, k)))
    else if (what == "kill") follow_kill(i, t, process_id[operand(t, 2)])
    else if (what == "fork") follow_fork(i, t, process_id[operand(t, 2)])
    else if (what == "exit") follow_exit(i, t)
    else if (what == "get" || what == "getn") take_timers(object_of(t, operand(t, 2)), n)
    else follow_timers(i, t, what)
}

function give(t, what) {
    open_fd(t, word[3], what)
    set_variable(t, operand(t, 2), word[3])
}

# An arrow to each thread that waits there.
function point_to(i, kind, what,    t) {
    for (t = 1; t <= threads; t++)
        if (is_there[t] && waits[t] == kind && waits_for[t] == what && what != "" && !is_in(t, partners[i] "")) {
            partners[i] = partners[i] " " t
            arrow[i] = "to"
        }
}

function is_in(t, list) { return index(list " ", " " t " ") }

function follow_attach(i, t, path) {
    at_path[path] = object_of(t, operand(t, 2))
    point_to(i, "path", path)
}

function follow_kill(i, t, p,    other) {
    for (other = 1; other <= threads; other++) {
        if (!is_there[other] || thread_process[other] != p) continue
        is_there[other] = 0
        if (other == t) label[i] = label[i] ", its own"
        else {
            partners[i] = partners[i] " " other
            arrow[i] = "end"
        }
    }
    has_ended[p] = 1
    ended_at[p] = i
    end_timers(p)
}

function follow_fork(i, t, child,    other, fd) {
    forked_at[thread_process[t]] = i
    for (other = 1; other <= threads; other++)
        if (thread_process[other] == child && !is_spare[other]) {
            is_there[other] = 1
            partners[i] = partners[i] " " other
            arrow[i] = "to"
        }
    for (fd = 0; fd < 256; fd++)
        if ((thread_process[t], fd) in object) object[child, fd] = object[thread_process[t], fd]
}

function follow_exit(i, t,    p) {
    p = thread_process[t]
    is_there[t] = 0
    ended_at[p] = i
    if (serves[t] != "") {
        number[i] = serves[t]
        label[i] = "exit in \001"
    }
    if (!is_over(p, i)) return
    label[i] = label[i] ", " process_name[p] " ends"
    end_timers(p)
}

# Whether a process is known to be over after event i. A spare that has begun need not have had a turn: that it has not begun is
# told by a run that goes on to where no thread can take one, and in which no kill comes between.
function is_over(p, i,    t, unseen) {
    for (t = 1; t <= threads; t++) {
        if (thread_process[t] != p) continue
        if (is_there[t] || (t in last_event && last_event[t] > i)) return 0
        if (is_spare[t] && !(t in first_event)) unseen = 1
    }
    return !unseen || (last_kill <= i && end_line ~ /^end (complete|stalled)/)
}
