# Reads a trace whose lines stand in text[1] .. text[lines], of the script that was read. What is no trace is told in one line.
#
# Of event i: event_thread[i], event_root[i], event_what[i], event_answer[i]. Of call n: call_at[n], caller[n], accept_at[n], and
# idle_since[n], the event by which the thread that accepts it came to wait.

function bad_trace(why) { fail(trace_file ": line " trace_line ": no trace of " script_file ", " why) }

function read_trace() {
    for (trace_line = 1; trace_line <= lines && text[trace_line] ~ /^[0-9]/; trace_line++) read_event(text[trace_line])
    events = trace_line - 1
    if (trace_line > lines) bad_trace("it has no end line")
    read_end(text[trace_line])
    end_line = text[trace_line++]
    if (trace_line <= lines && text[trace_line] ~ /^tail (0|[1-9][0-9]*)$/) trace_line++
    if (trace_line <= lines) bad_trace("nothing is wanted there")
}

function thread_of(name) {
    if (!(name in thread_id)) bad_trace("there is no thread `" name "`")
    return thread_id[name]
}

function read_event(line,    part, rest) {
    if (line !~ /^[1-9][0-9]* [a-z][a-z0-9_]* [a-z][a-z0-9_]* [a-z]+ [ -~]+$/) bad_trace("this is no event")
    split(line, part, " ")
    if (part[1] != trace_line "") bad_trace("event " trace_line " is wanted")
    rest = substr(line, length(part[1] part[2] part[3] part[4]) + 5)
    event_thread[trace_line] = thread_of(part[2])
    event_root[trace_line] = thread_of(part[3])
    event_what[trace_line] = part[4]
    event_answer[trace_line] = rest
    read_call(trace_line, event_thread[trace_line], part[4], rest)
}

function read_call(i, t, what, answer,    part) {
    split(answer, part, " ")
    if (what == "call" && answer ~ /^wait c[1-9][0-9]*$/) {
        caller[substr(part[2], 2)] = t
        call_at[substr(part[2], 2)] = i
    } else if (what == "accept" && part[2] ~ /^c/) {
        accept_at[substr(part[2], 2)] = i
        idle_since[substr(part[2], 2)] = last_event[t]
    }
    if (what == "kill") last_kill = i
    if (!(t in first_event)) first_event[t] = i
    last_event[t] = i
}

function read_end(line,    part, n, i) {
    n = split(line, part, " ")
    if (line ~ /^end (complete|budget) (0|[1-9][0-9]*)$/ || line ~ /^end stalled (0|[1-9][0-9]*)( [a-z][a-z0-9_]*)+$/) {
        if (part[3] != events "") bad_trace("it has " events " events")
        for (i = 4; i <= n; i++) thread_of(part[i])
    } else if (line ~ /^refused turn [1-9][0-9]* [a-z][a-z0-9_]*$/) thread_of(part[4])
    else bad_trace("this is neither an event nor an end line")
}
