# Reads a script: its processes, threads and bodies, as far as a trace of it needs them. What is no script is told in one line.
#
# process_name[p]; thread_id[name], thread_name[t], thread_process[t], is_spare[t]; body_of[p, name] of a procedure, body of a
# thread t is t itself. A body b has lines 1 to length_of[b], whose words are op[b, line, 1] to op[b, line, op_count[b, line]];
# block_end[b, line] is the `end` of a block. raw[1] .. are the lines as they stand, script_lines of them. since[w]: the version
# of scripts from which on w is a command.
#
# Where a function of these files is given an element that may not be set, "" stands behind it: gawk 5.2 loses such a value.

# One line on the error stream, and status 2.
function fail(text) {
    print tool ": " text | "cat 1>&2"
    close("cat 1>&2")
    exit 2
}

function bad_script(why) { fail(script_file ": line " script_line ": no script, " why) }

function is_name(text) { return length(text) <= 16 && text ~ /^[a-z][a-z0-9_]*$/ }

# The words of a line into word[1] .. word[n]; -1 where a string has no end.
function split_words(text,    n) {
    n = 0
    while (match(text, /[^ ]/)) {
        text = substr(text, RSTART)
        if (substr(text, 1, 1) == "\"") {
            if (!match(text, /^"([^"\\]|\\.)*"/)) return -1
        } else match(text, /^[^ ]+/)
        word[++n] = substr(text, 1, RLENGTH)
        text = substr(text, RLENGTH + 1)
    }
    return n
}

function read_script(    line, status, names, i, n) {
    n = split("create call return serve revoke bind unbind info getparam setparam cred testcancel exit close dup attach" \
        " detach open await pipe write read pcreate associate dissociate get getn send sendn alert interrupt kill work" \
        " repeat if end", names, " ")
    for (i = 1; i <= n; i++) since[names[i]] = 1
    since["fork"] = 2
    n = split("tcreate tset tdelete advance", names, " ")
    for (i = 1; i <= n; i++) since[names[i]] = 3
    since["ncd"] = 4
    script_line = 0
    while ((status = (getline line < script_file)) > 0) {
        raw[++script_line] = line
        take_line(line)
    }
    if (status < 0) fail(script_file ": it cannot be read")
    if (script_line == 0) fail(script_file ": no script, it is empty")
    script_lines = script_line++
    if (body != "") bad_script("the block that begins in line " body_line " has no `end`")
    check_names()
}

function take_line(line,    n) {
    if (script_line == 1) {
        if (line !~ /^doors script [1-4]$/) bad_script("its first line is not `doors script V`, with V from 1 to 4")
        version = substr(line, 14)
        return
    }
    if (line ~ /[^ -~]/) bad_script("a byte that is not printable")
    if (line ~ /^ *(#|$)/) return
    n = split_words(line)
    if (n < 0) bad_script("a string has no end")
    if (body != "") take_command(n)
    else take_declaration(n)
}

function declares(n, least, most) {
    if (n < least || n > most || !is_name(word[2])) bad_script("`" word[1] "` has another form")
}

function take_declaration(n) {
    if (word[1] == "budget") {
        if (n != 2 || processes) bad_script("`budget` has another form or place")
    } else if (word[1] == "process") {
        declares(n, 2, 4)
        new_process("")
    } else if (word[1] == "child" && version > 1) {
        declares(n, 4, 4)
        if (word[3] != "of" || !(word[4] in process_id)) bad_script("`child` names no process of an earlier line")
        new_process(process_id[word[4]])
    } else if (word[1] == "schedule") {
        if (n < 2) bad_script("`schedule` names no thread")
        for (; n > 1; n--) refer("thread", word[n])
    } else if (processes && (word[1] == "thread" || word[1] == "spare" || word[1] == "proc")) {
        declares(n, 2, 2)
        new_member(word[1], word[2])
    } else bad_script("`" word[1] "` has no place there")
}

function new_process(of) {
    if (word[2] in process_id) bad_script("`" word[2] "` is declared twice")
    process_id[word[2]] = ++processes
    process_name[processes] = word[2]
    parent[processes] = of
}

function new_member(kind, name) {
    if (kind == "proc") {
        if ((processes, name) in body_of) bad_script("`" name "` is declared twice")
        body = body_of[processes, name] = "proc " processes " " name
    } else {
        if (name in thread_id) bad_script("`" name "` is declared twice")
        thread_id[name] = ++threads
        thread_name[threads] = name
        thread_process[threads] = processes
        is_spare[threads] = kind == "spare"
        length_of[threads] = 0
        if (kind == "spare") return
        body = threads
    }
    body_line = script_line
    length_of[body] = 0
    depth = 0
}

function take_command(n,    at, i) {
    if (!(word[1] in since) || since[word[1]] > version) bad_script("`" word[1] "` is no command of version " version)
    if (word[1] == "end" && depth == 0) {
        body = ""
        return
    }
    at = ++length_of[body]
    for (i = 1; i <= n; i++) op[body, at, i] = word[i]
    op_count[body, at] = n
    op_line[body, at] = script_line
    if (word[1] == "end") block_end[body, open_at[depth--]] = at
    if (word[1] == "repeat" || word[1] == "if") open_at[++depth] = at
    if (word[1] == "interrupt") refer("thread", word[2])
    if (word[1] == "kill" || word[1] == "fork") refer("process", word[2])
    if (word[1] == "create") refer("procedure", word[3])
}

# A name that may be declared in a later line.
function refer(kind, name) {
    referred_kind[++referred] = kind
    referred_name[referred] = name
    referred_in[referred] = processes
    referred_line[referred] = script_line
}

function check_names(    i, kind, name) {
    for (i = 1; i <= referred; i++) {
        kind = referred_kind[i]
        name = referred_name[i]
        script_line = referred_line[i]
        if (kind == "thread" ? name in thread_id : kind == "process" ? name in process_id : (referred_in[i], name) in body_of)
            continue
        bad_script("there is no " kind " `" name "`")
    }
}
