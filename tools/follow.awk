# Follows each thread through its body as the trace goes on, and with it what each descriptor stands for: so that an event can
# be told with what the script says of it.
#
# body[t], at[t]: the line at which thread t stands. waits[t]: "" where it runs, or `call`, `port`, `path`, `task`, `pool`.
# serves[t]: the call or notice whose procedure it runs, as `c1`. is_there[t]: 1 where it has begun and has not ended.
# object[p, fd]: what a descriptor of process p stands for: `d1` the first door, `p1` a port, `r1` and `w1` the ends of a pipe.

function begin_threads(    t) {
    for (t = 1; t <= threads; t++) {
        begin_body(t, t, 0)
        is_there[t] = !is_spare[t] && parent[thread_process[t]] == ""
    }
}

function begin_body(t, body, notice) {
    runs[t] = body
    at[t] = 1
    depth_of[t] = 0
    last[t] = "ok"
    by_notice[t] = notice
    life[t]++
    settle(t)
}

# To the next command: `repeat`, `if` and `end` are no events.
function settle(t,    b, word) {
    b = runs[t]
    while (at[t] <= length_of[b]) {
        word = op[b, at[t], 1]
        if (word == "repeat") enter_block(t, op[b, at[t], 2] - 1)
        else if (word == "if") {
            if (is_met(t, op[b, at[t], 2])) enter_block(t, 0)
            else at[t] = block_end[b, at[t]] + 1
        } else if (word == "end") leave_block(t)
        else return
    }
}

function enter_block(t, left) {
    depth_of[t]++
    left_of[t, depth_of[t]] = left
    start_of[t, depth_of[t]] = ++at[t]
}

function leave_block(t) {
    if (left_of[t, depth_of[t]]-- > 0) at[t] = start_of[t, depth_of[t]]
    else {
        depth_of[t]--
        at[t]++
    }
}

function is_met(t, condition) {
    if (condition == "ok") return last[t] !~ /^E/
    if (condition == "unref") return by_notice[t]
    return last[t] == condition
}

# Word k of the command at which the thread stands.
function operand(t, k) { return op[runs[t], at[t], k] }

function operands(t) { return at[t] > length_of[runs[t]] ? 0 : op_count[runs[t], at[t]] }

# What the thread's next event shows.
function next_what(t,    word) {
    if (waits[t] == "call") return "collect"
    if (waits[t] == "port") return "got"
    if (waits[t] == "path") return "found"
    if (waits[t] == "task") return "done"
    if (waits[t] == "pool") return "accept"
    if (operands(t) == 0) return runs[t] != t || is_spare[t] ? "return" : "exit"
    word = operand(t, 1)
    return word == "serve" ? "return" : word
}

function stands_at(t) {
    if (operands(t) == 0) return "the end of its lines"
    return "line " op_line[runs[t], at[t]] " of the script"
}

function check_event(i, t, what,    wanted) {
    trace_line = i
    if (is_spare[t] && !has_begun[t] && !has_ended[thread_process[t]]) is_there[t] = 1
    has_begun[t] = 1
    if (!is_there[t]) bad_trace("`" thread_name[t] "` has not begun, or has ended")
    wanted = next_what(t)
    if (what != wanted && !(wanted == "accept" && what == "woken"))
        bad_trace("`" thread_name[t] "` stands at " stands_at(t) ", and `" wanted "` is its next event")
}

# The descriptor that an operand names, and what it stands for; "" where none does.
function descriptor(t, word,    part) {
    sub(/!$/, "", word)
    if (word !~ /^\$/) return word
    split(substr(word, 2), part, ".")
    return variable_fd(t, part[1], part[2] + 1)
}

function variable_fd(t, name, k,    fds) {
    if (split(variable[t, life[t], name], fds, " ") < k) return ""
    return fds[k]
}

function object_of(t, word,    fd) {
    fd = descriptor(t, word)
    return fd == "" ? "" : object[thread_process[t], fd] ""
}

function open_fd(t, fd, what) { object[thread_process[t], fd] = what }

function close_fd(t, fd) { delete object[thread_process[t], fd] }

function set_variable(t, name, fds) { variable[t, life[t], name] = fds }

# Where the words after `desc` begin, or 0.
function passes_from(t,    k, n) {
    n = operands(t)
    for (k = 2; k <= n; k++) if (operand(t, k) == "desc") return k + 1
    return 0
}

# The objects that the command passes; what is marked is closed.
function pass_objects(t,    k, n, list, fd) {
    k = passes_from(t)
    n = operands(t)
    list = ""
    for (; k && k <= n && operand(t, k) != "rsize"; k++) {
        list = list " " object_of(t, operand(t, k))
        if (operand(t, k) ~ /!$/) marked[descriptor(t, operand(t, k))] = 1
    }
    for (fd in marked) {
        close_fd(t, fd)
        delete marked[fd]
    }
    return list
}

# Whether a `return` is refused for what it passes.
function passes_badly(t,    k, n, fd, seen, bad) {
    k = passes_from(t)
    n = operands(t)
    for (; k && k <= n; k++) {
        fd = descriptor(t, operand(t, k))
        if (object_of(t, operand(t, k)) == "") bad = 1
        if (fd in seen && (seen[fd] || operand(t, k) ~ /!$/)) bad = 1
        if (!(fd in seen) || operand(t, k) ~ /!$/) seen[fd] = operand(t, k) ~ /!$/
    }
    return bad + 0
}

# The numbers after the word `fd` in an answer, which stands in word[1] .. word[n], from word k on: they get these objects.
function receive(t, k, n, objects,    what, i, fds) {
    split(objects, what, " ")
    fds = ""
    if (word[k] != "fd") return fds
    for (k++; k <= n && word[k] ~ /^[0-9]+$/; k++) {
        open_fd(t, word[k], what[++i])
        fds = fds " " word[k]
    }
    return fds
}
