# Reads a script which `doors` takes: as much of it as a history is made from.
#
# declared[p]: the line of process or child p in a history. thread_id[name], thread_process[t], is_spare[t]; body_of[p, name] is the
# body of a procedure, and that of a thread is its number. Body b has lines 1 to length_of[b], whose words are op[b, line, 1] to
# op[b, line, op_count[b, line]]; block_end[b, line] is the `end` of a block.

function fail(why) {
    print script_file ": " why | "cat 1>&2"
    close("cat 1>&2")
    exit 2
}

# The words of a line into word[1] .. word[n].
function split_words(text,    n) {
    n = 0
    while (match(text, /[^ ]/)) {
        text = substr(text, RSTART)
        if (substr(text, 1, 1) == "\"") match(text, /^"([^"\\]|\\.)*"/)
        else match(text, /^[^ ]+/)
        word[++n] = substr(text, 1, RLENGTH)
        text = substr(text, RLENGTH + 1)
    }
    return n
}

function forget_script() {
    processes = threads = 0
    body = ""
    split("", declared)
    split("", process_id)
    split("", thread_id)
    split("", thread_process)
    split("", is_spare)
    split("", body_of)
    split("", length_of)
    split("", op)
    split("", op_count)
    split("", block_end)
}

# Whether the script has commands for which a history has no place.
function read_script(    line, n, others) {
    forget_script()
    while ((getline line <script_file) > 0) {
        n = line ~ /^ *#/ ? 0 : split_words(line)
        if (n == 0 || word[1] == "doors") continue
        if (word[1] == "work" || word[1] == "ncd") others = 1
        if (body == "") take_declaration(n)
        else take_command(n)
    }
    close(script_file)
    return others + 0
}

function take_declaration(n) {
    if (word[1] == "process") {
        process_id[word[2]] = ++processes
        declared[processes] = "process " word[2] " limit " (n == 4 ? word[4] : 256)
    } else if (word[1] == "child") {
        process_id[word[2]] = ++processes
        declared[processes] = "child " word[2] " of " word[4]
    } else if (word[1] == "proc") begin_body_lines(body_of[processes, word[2]] = "proc " processes " " word[2])
    else if (word[1] == "thread" || word[1] == "spare") {
        thread_id[word[2]] = ++threads
        thread_process[threads] = processes
        is_spare[threads] = word[1] == "spare"
        declared[processes] = declared[processes] " " word[1] " " word[2]
        begin_body_lines(threads)
        if (is_spare[threads]) body = ""
    }
}

function begin_body_lines(b) {
    body = b
    length_of[b] = depth = 0
}

function take_command(n,    at, i) {
    if (word[1] == "end" && depth == 0) {
        body = ""
        return
    }
    at = ++length_of[body]
    for (i = 1; i <= n; i++) op[body, at, i] = word[i]
    op_count[body, at] = n
    if (word[1] == "end") block_end[body, open_at[depth--]] = at
    if (word[1] == "repeat" || word[1] == "if") open_at[++depth] = at
}
