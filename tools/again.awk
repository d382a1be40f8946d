# The trace is the standard input; the rest is told by the environment.
{ text[++lines] = $0 }

END {
    tool = "again"
    script_file = ENVIRON["AGAIN_SCRIPT"]
    trace_file = ENVIRON["AGAIN_TRACE"]
    read_script()
    read_trace()
    gather_turns()
    if (size_of(0) <= 1048576) put(0)
    else if (size_of(1) <= 1048576) put(1)
    else fail(trace_file ": its " events " turns have no room in a script of 1048576 bytes")
}

# Lines of 16 names; a turn that was refused is the last one.
function gather_turns(    i, part, turns, name) {
    turns = events
    if (split(end_line, part, " ") && part[1] == "refused") turns++
    for (i = 1; i <= turns; i++) {
        name = i > events ? part[4] : thread_name[event_thread[i]]
        if (i % 16 == 1) schedule[++schedules] = "schedule"
        schedule[schedules] = schedule[schedules] " " name
    }
}

function is_kept(line, tight) { return line !~ /^ *schedule( |$)/ && !(tight && line ~ /^ *(#|$)/) }

function size_of(tight,    k, size, line) {
    for (k = 1; k <= script_lines; k++) {
        line = raw[k]
        if (tight) sub(/^ +/, "", line)
        if (is_kept(line, tight)) size += length(line) + 1
    }
    for (k = 1; k <= schedules; k++) size += length(schedule[k]) + 1
    return size
}

function put(tight,    k, line) {
    for (k = 1; k <= script_lines; k++) {
        line = raw[k]
        if (tight) sub(/^ +/, "", line)
        if (is_kept(line, tight)) print line
    }
    for (k = 1; k <= schedules; k++) print schedule[k]
}
