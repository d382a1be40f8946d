# Follows each thread through the lines of its body as the events of a trace go on, with what its variables have.
#
# runs[t], at[t]: the line at which thread t stands; life[t]: how many bodies it has begun. last[t]: what the last answer was, for
# `if`. serves[t]: the call whose procedure it runs. data_in[t, life, name] and fds_in[t, life, name]: a variable.
# sent[n], returned[n]: the bytes of call n, and of its results; piped: those in the pipe, where there is one. Bytes are in the
# spelling of strings, without the quotes; `unknown` stands for those of which only the digest is known.

function begin_threads(    t) {
    split("", life)
    split("", serves)
    split("", in_call)
    split("", data_in)
    split("", fds_in)
    split("", sent)
    split("", returned)
    pipes = 0
    piped = ""
    unknown = "\001"
    for (t = 1; t <= threads; t++) begin_body(t, t, 0)
}

function begin_body(t, b, notice) {
    runs[t] = b
    at[t] = 1
    depth_of[t] = 0
    last[t] = "ok"
    by_notice[t] = notice
    life[t]++
    settle(t)
}

# On to the next command: `repeat`, `if` and `end` are no events.
function settle(t,    b, first) {
    b = runs[t]
    while (at[t] <= length_of[b]) {
        first = op[b, at[t], 1]
        if (first == "repeat") enter_block(t, op[b, at[t], 2] - 1)
        else if (first == "if") {
            if (is_met(t, op[b, at[t], 2])) enter_block(t, 0)
            else at[t] = block_end[b, at[t]] + 1
        } else if (first == "end") leave_block(t)
        else return
    }
}

function enter_block(t, left) {
    left_of[t, ++depth_of[t]] = left
    start_of[t, depth_of[t]] = ++at[t]
}

function leave_block(t) {
    if (left_of[t, depth_of[t]]-- > 0) at[t] = start_of[t, depth_of[t]]
    else {
        depth_of[t]--
        at[t]++
    }
}

function is_met(t, condition) {
    if (condition == "ok") return last[t] !~ /^E/
    if (condition == "unref") return by_notice[t]
    return last[t] == condition
}

function finish(t, answer) {
    last[t] = answer
    if (at[t] <= length_of[runs[t]]) at[t]++
    settle(t)
}

# Word k of the command at which the thread stands, and how many it has.
function operand(t, k) { return op[runs[t], at[t], k] }

function operands(t) { return at[t] > length_of[runs[t]] ? 0 : op_count[runs[t], at[t]] }

function set_variable(t, name, bytes, fds) {
    data_in[t, life[t], name] = bytes
    fds_in[t, life[t], name] = fds
}

# After an event, whose answer has the words word[1] .. word[n].
function follow(t, what, n) {
    if (what == "accept") follow_accept(t, n)
    else if (what == "call" && word[1] == "wait") {
        in_call[t] = word[2]
        sent[word[2]] = asked_data
    } else if (what == "return") follow_return(t)
    else if (word[1] != "wait") {
        if (word[1] == "ok") follow_done(t, what, n)
        finish(t, what == "sendn" ? "ok" : what == "testcancel" ? word[2] : word[1])
    }
}

function follow_accept(t, n) {
    if (word[1] == "EMFILE") return
    serves[t] = word[2]
    begin_body(t, body_of[thread_process[t], word[3]], word[5] == "unref")
    set_variable(t, "cookie", word[4], "")
    if (word[5] == "unref") set_variable(t, "arg", "", "")
    else set_variable(t, "arg", told_data(word[5], sent[word[2]]), told_fds(6, n))
}

# Where the answer is EINVAL and nothing was passed, the results went out all the same.
function follow_return(t) {
    if (serves[t] != "") returned[serves[t]] = asked_data
    if (word[1] == "wait" || (word[1] == "EINVAL" && !asked_passes)) serves[t] = ""
    if (word[1] != "wait") finish(t, word[1])
}

function follow_done(t, what, n) {
    if (what ~ /^(create|open|dup|pcreate)$/) set_variable(t, operand(t, 2), "", word[3])
    else if (what == "pipe") {
        set_variable(t, operand(t, 2), "", word[3])
        set_variable(t, operand(t, 3), "", word[4])
        pipes++
    } else if (what == "write") piped = piped front(asked_data, word[2])
    else if (what == "read") follow_read(t)
    else if (what == "collect") set_variable(t, operand(t, 2), told_data(word[2], returned[in_call[t]]), told_fds(3, n))
}

function follow_read(t,    size) {
    size = told_size(word[2])
    set_variable(t, operand(t, 2), told_data(word[2], pipes == 1 ? front(piped, size) : ""), "")
    piped = substr(piped, length(front(piped, size)) + 1)
}

# The bytes that an answer tells: as a string, or by their digest, where these may be the ones.
function told_data(told, known) {
    if (told ~ /^"/) return substr(told, 2, length(told) - 2)
    return count(known) == told_size(told) ? known : unknown
}

function told_size(told,    part) {
    if (told ~ /^"/) return count(substr(told, 2, length(told) - 2))
    split(told, part, ":")
    return part[2] + 0
}

# The numbers from word[k] on, where `fd` stands there.
function told_fds(k, n,    fds) {
    fds = ""
    if (k > n || word[k] != "fd") return fds
    for (k++; k <= n && word[k] ~ /^[0-9]+$/; k++) fds = fds " " word[k]
    return fds
}
