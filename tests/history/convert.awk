# Makes histories of traces with their scripts, in the folder `to`, and for each two rows as changes.awk does: the history, which is legal, and
# the same with another last byte in the answer of its middle event. The input names a script and its trace in a line. What is left out
# stands in the file `left`: `tasks SCRIPT`, which has tasks or name tables, or `none SCRIPT`, of which there is no trace.
#
# A procedure and a path are declared in the line before the event that names them first.

BEGIN {
    set_forms()
    set_printable()
    for (i = 32; i < 127; i++) byte_after[sprintf("%c", i)] = sprintf("%c", i < 126 ? i + 1 : 32)
}

{
    script_file = $1
    trace_file = $2
    if (!is_trace()) print "none", script_file >left
    else if (read_script()) print "tasks", script_file >left
    else {
        convert()
        put_rows()
    }
}

function is_trace(    line, first) {
    first = ""
    if ((getline line <trace_file) > 0) first = line
    close(trace_file)
    return first ~ /^([0-9]|end |refused )/
}

function add(line) { history[++lines] = line }

function need_path(name) {
    if (name in has_path) return
    has_path[name] = 1
    add("path " name " \"/" name "\"")
}

function need_procedure(p, name,    part) {
    if ((p, name) in has_procedure) return
    has_procedure[p, name] = 1
    split(declared[p], part, " ")
    add("proc " name " of " part[2])
}

function convert(    p, line) {
    split("", has_path)
    split("", has_procedure)
    lines = events = 0
    begin_threads()
    add("doors history 1")
    for (p = 1; p <= processes; p++) add(declared[p])
    while ((getline line <trace_file) > 0) {
        if (line ~ /^[0-9]/) convert_event(line)
        else convert_end(line)
    }
    close(trace_file)
}

function convert_event(line,    part, answer, t, what, left_words) {
    split(line, part, " ")
    t = thread_id[part[2]]
    what = part[4]
    left_words = part[1] " " part[2] " " part[3] " "
    answer = substr(line, length(left_words what) + 2)
    add(left_words (what ~ /^(accept|collect|got|found|woken)$/ ? what : request(t)) " = " answer)
    line_of[++events] = lines
    follow(t, what, split_words(answer))
}

# A run whose budget is used up is open. After a turn that was refused it need not be.
function convert_end(line) {
    if (line ~ /^end budget /) sub(/budget/, "open", line)
    if (line ~ /^end /) add(line)
}

function put_rows(    name, middle, line, changed) {
    name = script_file
    sub(/^tests\//, "", name)
    sub(/\.[a-z]*$/, "", name)
    gsub(/\//, "_", name)
    put(name, "= legal " events)
    if (events == 0) return
    middle = line_of[int((events + 1) / 2)]
    line = history[middle]
    changed = substr(line, 1, length(line) - 1) byte_after[substr(line, length(line))]
    history[middle] = changed
    put(name "_changed", "= illegal line " middle "\001want " line "\001have " changed)
}

function put(name, wanted,    file, k) {
    file = to "/" name
    for (k = 1; k <= lines; k++) print history[k] >file
    close(file)
    print file "\t" wanted
}
