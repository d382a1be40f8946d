# The words of a request in a history: the command of a script without its VAR, and each operand with its value.
#
# asked_data: the bytes of a `call` or `return`; asked_passes: whether it passes descriptors.

# The kinds of operands of each command: `-` is left out, `f` a descriptor, `F` descriptors to the end, `d` DATA with what may stand
# after it, `a` attributes, `w` the word as it is, `p` a path, `e` a procedure.
function set_forms(    list, n, i, part) {
    n = split("create:-ewa call:-fd return:d revoke:f bind:f unbind: getparam:fw setparam:fww cred: testcancel: exit: close:f dup:-f" \
        " attach:fp detach:p open:-p await:p pipe:-- write:fd read:-fw pcreate:- associate:ffww dissociate:ff get:fw getn:fwww send:fww" \
        " sendn:wwF alert:fwww interrupt:w kill:w fork:w tcreate:fw tset:www tdelete:w advance:w", list, " ")
    for (i = 1; i <= n; i++) {
        split(list[i], part, ":")
        form_of[part[1]] = part[2]
    }
}

function request(t,    first, form, text, i, k, kind) {
    asked_data = asked_passes = ""
    if (operands(t) == 0) return runs[t] == t && !is_spare[t] ? "exit" : "return \"\""
    first = operand(t, 1)
    if (first == "serve") return "return \"\""
    if (first == "info") return "info " (operand(t, 2) == "query" ? "query" : descriptor(t, operand(t, 2)))
    if (!(first in form_of)) fail("`" first "` has no form")
    if (first == "setparam" && operand(t, 4) == "18446744073709551615") return "setparam " descriptor(t, operand(t, 2)) " " operand(t, 3) " max"
    text = first
    form = form_of[first]
    for (i = 1; i <= length(form) && i < operands(t); i++) {
        kind = substr(form, i, 1)
        k = i + 1
        if (kind == "f") text = text " " descriptor(t, operand(t, k))
        else if (kind == "F") for (; k <= operands(t); k++) text = text " " descriptor(t, operand(t, k))
        else if (kind == "d") return text " " data_words(t, k, first)
        else if (kind == "a") return text attributes(t, k)
        else if (kind != "-") text = text " " operand(t, k)
        if (kind == "p") need_path(operand(t, k))
        if (kind == "e") need_procedure(thread_process[t], operand(t, k))
    }
    return text
}

# The descriptor that a word names; the greatest number where a variable has none.
function descriptor(t, name,    part, fds) {
    if (name !~ /^\$/) return name
    split(substr(name, 2), part, ".")
    if (!((t, life[t], part[1]) in fds_in) || split(fds_in[t, life[t], part[1]], fds, " ") < part[2] + 1) return "4294967295"
    return fds[part[2] + 1]
}

# DATA, and after it descriptors that are passed, and for a call its `rsize`.
function data_words(t, k, first,    text, rsize, mark) {
    asked_data = piece(t, operand(t, k++))
    for (; k <= operands(t) && operand(t, k) == "+"; k += 2) asked_data = asked_data piece(t, operand(t, k + 1))
    asked_data = front(asked_data, 8192)
    text = "\"" asked_data "\""
    rsize = 4096
    for (; k <= operands(t); k++) {
        if (operand(t, k) == "rsize") rsize = operand(t, ++k)
        else if (operand(t, k) == "desc") {
            text = text " desc"
            asked_passes = 1
        } else {
            mark = operand(t, k) ~ /!$/ ? "!" : ""
            text = text " " descriptor(t, substr(operand(t, k), 1, length(operand(t, k)) - length(mark))) mark
        }
    }
    return text (first == "call" ? " rsize " rsize : "")
}

function piece(t, text) {
    if (text ~ /^"/) return spelled(substr(text, 2, length(text) - 2))
    if (text ~ /^fill:/) return filled(substr(text, 6) + 0)
    text = substr(text, 2)
    if (!((t, life[t], text) in data_in)) return ""
    if (data_in[t, life[t], text] == unknown) fail("bytes that its trace shows by their digest are sent, and are not known")
    return data_in[t, life[t], text]
}

function filled(n,    text) {
    text = "x"
    while (length(text) < n) text = text text
    return substr(text, 1, n)
}

# A string in its one spelling: no printable byte but a quote and a backslash is escaped.
function spelled(text,    done, byte) {
    done = ""
    while (match(text, /\\x[0-9a-f][0-9a-f]/)) {
        # a backslash before it may be the second of two
        if (match(text, /\\./) && substr(text, RSTART + 1, 1) != "x") {
            done = done substr(text, 1, RSTART + 1)
            text = substr(text, RSTART + 2)
            continue
        }
        byte = substr(text, RSTART, 4)
        done = done substr(text, 1, RSTART - 1) (byte in printable ? printable[byte] : byte)
        text = substr(text, RSTART + 4)
    }
    return done text
}

function set_printable(    i, byte) {
    for (i = 32; i < 127; i++) {
        byte = sprintf("%c", i)
        printable[sprintf("\\x%02x", i)] = byte == "\"" || byte == "\\" ? "\\" byte : byte
    }
}

# How many bytes there are.
function count(text) {
    if (index(text, "\\")) gsub(/\\(x..|.)/, "x", text)
    return length(text)
}

# The first n bytes.
function front(text, n,    done) {
    if (length(text) <= n) return text
    if (!index(text, "\\")) return substr(text, 1, n)
    done = ""
    for (; n > 0 && match(text, /^(\\x..|\\.|[^\\])/); n--) {
        done = done substr(text, 1, RLENGTH)
        text = substr(text, RLENGTH + 1)
    }
    return done
}

# Attributes in their order.
function attributes(t, k,    has, names, n, i, text) {
    for (; k <= operands(t); k++) has[operand(t, k)] = 1
    n = split("unref private local revoked unref-multi is-unref refuse-desc no-cancel", names, " ")
    text = ""
    for (i = 1; i <= n; i++) if (names[i] in has) text = text " " names[i]
    return text
}
