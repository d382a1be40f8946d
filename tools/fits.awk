# Whether answers fit what the script says, as far as a trace tells it: a trace of a script that was changed since is refused.
#
# Of call n: call_door[n], what its descriptor stands for; call_text[n] and result_text_of[n], what the script passes where it is
# one string; is_broken[n]: its caller was interrupted before there were results. is_hit[t]: thread t was, at a port.
# ended_at[p], forked_at[p]: the last event by which a thread of process p ended, and the last fork by one of it.

# Operand k where it is the whole data and shows in a trace as it stands; else "".
function plain_text(t, k,    text) {
    if (operands(t) < k || (operands(t) > k && operand(t, k + 1) == "+")) return ""
    text = operand(t, k)
    return text ~ /^"[^"\\]*"$/ ? text : ""
}

function differs(text, shows) { return text != "" && shows ~ /^"[^\\]*"$/ && text != shows }

# The thread is to run the procedure of the door that was called, with its cookie and what was passed.
function check_accept(t, call,    door) {
    door = call_door[call]
    if (door ~ /^d/) {
        if (door_process[door] != thread_process[t]) bad_trace("c" call " is a call of `" process_name[door_process[door]] "`")
        if (door_procedure[door] != word[3]) bad_trace("c" call " is a call of `" door_procedure[door] "`")
        if (door_cookie[door] ~ /^(0|[1-9][0-9]*)$/ && door_cookie[door] != word[4])
            bad_trace("c" call " is a call of a door with the cookie " door_cookie[door])
    }
    if (differs(call_text[call] "", word[5])) bad_trace("c" call " passes " call_text[call])
}

# Results are those of a return; EINTR has a cause.
function check_collect(t, call, error) {
    if (!error) {
        if (call in is_broken) bad_trace("c" call " was interrupted")
        if (!(call in has_results)) bad_trace("no thread has returned from c" call)
        if (differs(result_text_of[call] "", word[2])) bad_trace("the results of c" call " are " result_text_of[call])
    } else if (word[1] == "EINTR" && !is_ended(t, call)) bad_trace("nothing in the script interrupts c" call)
}

function is_ended(t, call,    p) {
    if (call in is_broken || forked_at[thread_process[t]] > call_at[call]) return 1
    p = call_door[call] ~ /^d/ ? door_process[call_door[call]] : ""
    return p == "" || ended_at[p] > call_at[call]
}

function check_got(t) {
    if (word[1] == "EINTR" && !(t in is_hit)) bad_trace("nothing in the script interrupts `" thread_name[t] "`")
    if (word[1] != "EINTR" && t in is_hit) bad_trace("`" thread_name[t] "` was interrupted")
}
