# Tells each event in a label, with what the script says of it, and follows what it does.
#
# label[i], where \001 stands for number[i], a call or a notice as `c1`; partners[i]: the threads at the
# other end of an arrow; arrow[i]: `to` them, `from` them, `back` to a caller, or `end` where it ends them.
# state[i]: after event i, for each thread a byte: `|` it goes on, `:` it waits, `.` it waits for calls, or a space: it is not there.

function tell_all(    i) {
    begin_threads()
    state[0] = states()
    for (i = 1; i <= events; i++) {
        check_event(i, event_thread[i], event_what[i])
        tell(i, event_thread[i], event_what[i])
        state[i] = states()
    }
}

function states(    t, all) {
    all = ""
    for (t = 1; t <= threads; t++) all = all (!is_there[t] ? " " : waits[t] == "pool" ? "." : waits[t] != "" ? ":" : "|")
    return all
}

function tell(i, t, what,    n, error, serves_before) {
    n = split_words(event_answer[i])
    if (n < 1) bad_trace("this is no answer")
    error = word[1] ~ /^E[A-Z0-9]+$/
    if (!error && word[1] != "ok" && word[1] != "wait" && word[1] != "enter") bad_trace("`" word[1] "` is no answer")
    label[i] = what operands_text(t, what) result_text(n)
    serves_before = serves[t]
    if (what == "accept") tell_accept(i, t, n, error)
    else if (what == "return") tell_return(i, t, error)
    else if (what == "call") tell_call(i, t, error)
    else if (word[1] == "wait") tell_wait(i, t, what)
    else {
        if (what == "collect") tell_collect(i, t, n, error)
        else if (what == "got") tell_got(t, n)
        else if (what == "interrupt") tell_interrupt(i, t, thread_id[operand(t, 2)])
        else if (!error) follow_done(i, t, what, n)
        waits[t] = ""
        finish(t, error ? word[1] : what == "testcancel" && word[2] == "yes" ? "yes" : "ok")
    }
    if (serves_before ~ /^c/) tell_root(i, t, what)
}

# For whom a thread works that serves a call, where that is another one than before.
function tell_root(i, t, what) {
    if (event_root[i] == root_of[t]) return
    root_of[t] = event_root[i]
    if (what != "return" || event_root[i] != t) label[i] = label[i] ", now for " (event_root[i] == t ? "nobody" : thread_name[event_root[i]])
}

function finish(t, answer) {
    last[t] = answer
    if (at[t] <= length_of[runs[t]]) at[t]++
    settle(t)
}

# What an answer says besides `ok` and `wait`.
function result_text(n,    k, text) {
    text = ""
    for (k = 2; k <= n; k++) text = text " " short(word[k])
    if (word[1] == "ok") return text == "" ? "" : ":" text
    return word[1] == "wait" ? ": waits" : ": " word[1]
}

# At most 24 bytes of data, and no escape cut through.
function short(data,    text) {
    if (data ~ /^sha256:/) return substr(data, 1, match(data, /:[0-9a-f]*$/) + 8) ".."
    if (data !~ /^"/ || length(data) <= 26) return data
    text = "\""
    data = substr(data, 2)
    while (length(text) < 21 && match(data, /^(\\x..|\\.|[^\\])/)) {
        text = text substr(data, 1, RLENGTH)
        data = substr(data, RLENGTH + 1)
    }
    return text "\".."
}

# What the script says of a command, or of the wait that ends.
function operands_text(t, what) {
    if (what ~ /^(await|found|detach|interrupt|kill|fork)$/) return " " operand(t, 2)
    if (what ~ /^(create|attach|open|work|done)$/) return " " operand(t, 3)
    if (what ~ /^(close|read|write|dup)$/) return " " fd_text(t, operand(t, what ~ /^(close|write)$/ ? 2 : 3))
    if (what == "getparam" || what == "setparam") return " " door_text(t, operand(t, 2)) words_from(t, 3)
    if (what == "info" && operand(t, 2) == "query") return " query"
    if (what ~ /^(revoke|bind|info)$/) return " " door_text(t, operand(t, 2))
    if (what == "associate" || what == "dissociate") return " " fd_text(t, operand(t, 3)) words_from(t, 4)
    if (what ~ /^(send|get|getn|alert)$/) return words_from(t, 3)
    if (what == "sendn") return " " operand(t, 2) " " operand(t, 3)
    if (what ~ /^(tset|tdelete|advance)$/) return words_from(t, 2)
    if (what == "tcreate") return words_from(t, 3)
    if (what == "ncd" && plain_text(t, 3) != "") return " " short(plain_text(t, 3))
    return ""
}

function words_from(t, k,    text) {
    text = ""
    for (; k <= operands(t); k++) text = text " " operand(t, k)
    return text
}

function fd_text(t, word,    fd) {
    fd = descriptor(t, word)
    return fd == "" ? "no fd" : "fd " fd
}

# The procedure of a door.
function door_text(t, word,    door) {
    door = object_of(t, word)
    return door ~ /^d/ ? door_procedure[door] : fd_text(t, word)
}

function tell_call(i, t, error,    call, door) {
    door = door_text(t, operand(t, 3))
    if (error) {
        label[i] = "call " door ": " word[1]
        finish(t, word[1])
        return
    }
    if (descriptor(t, operand(t, 3)) == "") bad_trace("no descriptor is there for `call`, and it has no error")
    call = substr(word[2], 2)
    waits[t] = "call"
    in_call[t] = call
    cargo[call] = pass_objects(t)
    call_door[call] = object_of(t, operand(t, 3))
    call_text[call] = plain_text(t, 4)
    number[i] = word[2]
    label[i] = "call \001 " door
    if (!(call in accept_at)) label[i] = label[i] ", not accepted"
    else if (idle_since[call] > i) label[i] = label[i] ", queued"
    else {
        arrow[i] = "to"
        partners[i] = " " event_thread[accept_at[call]]
    }
}

function tell_accept(i, t, n, error,    call) {
    number[i] = word[2]
    call = substr(word[2], 2)
    label[i] = "accept \001" (error ? ": EMFILE" : "")
    if (word[2] ~ /^c/ && idle_since[call] > call_at[call]) {
        arrow[i] = "from"
        partners[i] = " " caller[call]
    }
    if (error) return
    if (!((thread_process[t], word[3]) in body_of)) bad_trace("there is no procedure `" word[3] "`")
    if (word[2] ~ /^c/) check_accept(t, call)
    label[i] = label[i] " " word[3] " " word[4] " " short(word[5])
    waits[t] = ""
    serves[t] = word[2]
    begin_body(t, body_of[thread_process[t], word[3]], word[5] == "unref")
    set_variable(t, "arg", receive(t, 6, n, cargo[call] ""))
    if (n > 5) label[i] = label[i] " fd" variable[t, life[t], "arg"]
    root_of[t] = event_root[i]
    if (word[2] ~ /^c/ && root_of[t] != caller[call]) label[i] = label[i] ", for " thread_name[root_of[t]]
}

function tell_return(i, t, error,    call, goes_out, objects) {
    goes_out = !error || (word[1] == "EINVAL" && !passes_badly(t))
    number[i] = serves[t]
    label[i] = (serves[t] != "" ? "return \001" : "serve") (error ? ": " word[1] : "")
    call = substr(serves[t], 2)
    if (goes_out) {
        objects = pass_objects(t)
        if (serves[t] ~ /^c/ && event_root[i] != t) {
            results[call] = objects
            has_results[call] = 1
            result_text_of[call] = plain_text(t, 2)
            arrow[i] = "back"
            partners[i] = " " caller[call]
        } else if (serves[t] ~ /^c/) label[i] = label[i] ", to nobody"
        serves[t] = ""
    }
    if (error) finish(t, word[1])
    else waits[t] = "pool"
}

function tell_collect(i, t, n, error,    call) {
    call = in_call[t]
    number[i] = "c" call
    label[i] = "collect \001" result_text(n)
    check_collect(t, call, error)
    if (!error) set_variable(t, operand(t, 2), receive(t, 3, n, results[call] ""))
}

function tell_got(t, n) {
    check_got(t)
    take_timers(waits_for[t], n)
}

function tell_wait(i, t, what) {
    waits[t] = what == "await" ? "path" : what == "work" ? "task" : "port"
    waits_for[t] = waits[t] == "path" ? operand(t, 2) : object_of(t, operand(t, 2))
    delete is_hit[t]
}

# An interrupt touches a thread that waits in a call without its results, or at a port.
function tell_interrupt(i, t, other) {
    if (waits[other] == "call") {
        number[i] = "c" in_call[other]
        label[i] = label[i] (in_call[other] in has_results ? ", results of \001 are there" : " in \001")
    } else if (waits[other] == "port") label[i] = label[i] " at a port"
    else label[i] = label[i] ", in no wait"
    if (waits[other] != "port" && (waits[other] != "call" || in_call[other] in has_results)) return
    if (waits[other] == "call") is_broken[in_call[other]] = 1
    else is_hit[other] = 1
    arrow[i] = "to"
    partners[i] = " " other
}
