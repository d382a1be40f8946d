# Writes the texts of tests/history/cases into the folder `to`, and for each a row as changes.awk does: its file, a tab, and the answer.
#
#   base NAME            a text that others begin with
#   case NAME            a text, with its answer below it
#   each BASE VERDICT    each line below it is a text, with this base before it; VERDICT is `legal N`, or the reason for which the line is bad
#   +BASE                the lines of a base
#   |TEXT                a line; behind `~` in place of `|` a line without its line feed
#   *N TEXT              N lines, with the numbers from 1 in place of each `#`
#   =TEXT                a line of the answer
#
# In a TEXT {N*BYTES} is N times these bytes, and {xHH} one byte, but not 0, which not each awk can write.

function wrong(why) {
    print FILENAME ": line " FNR ": " why | "cat 1>&2"
    close("cat 1>&2")
    has_failed = 1
    exit 2
}

function value_of(hex) { return 16 * (index("0123456789abcdef", substr(hex, 1, 1)) - 1) + index("0123456789abcdef", substr(hex, 2, 1)) - 1 }

function repeated(n, bytes,    all) {
    all = ""
    for (; n > 0; n--) all = all bytes
    return all
}

function expanded(text,    all, inside) {
    all = ""
    while (match(text, /\{(x[0-9a-f][0-9a-f]|[0-9]+\*[^}]*)\}/)) {
        inside = substr(text, RSTART + 1, RLENGTH - 2)
        all = all substr(text, 1, RSTART - 1)
        text = substr(text, RSTART + RLENGTH)
        if (inside ~ /^x/) all = all sprintf("%c", value_of(substr(inside, 2)))
        else all = all repeated(inside + 0, substr(inside, index(inside, "*") + 1))
    }
    return all text
}

function add(text) {
    body = body text
    size++
}

# What stands above ends.
function finish() {
    if (kind == "base") {
        base[name] = body
        size_of[name] = size
    } else if (kind == "case") {
        if (answer == "") wrong("`" name "` has no answer")
        put("case_" name, body, answer)
    }
    kind = body = answer = ""
    size = 0
}

function put(what, text, wanted,    file) {
    if (what in is_put) wrong("`" what "` comes again")
    is_put[what] = 1
    file = to "/" what
    printf "%s", text >file
    close(file)
    print file "\t= " wanted
}

function put_each(line) {
    put("line_" FNR "_of_cases", base[name] line "\n", verdict ~ /^legal/ ? verdict : "bad line " size_of[name] + 1 " " verdict)
}

/^(#|$)/ { next }

/^(base|case|each) / {
    finish()
    kind = $1
    name = $2
    if (kind == "each") {
        verdict = $3 (NF > 3 ? " " $4 : "")
        if (!(name in base)) wrong("there is no base `" name "`")
    }
    next
}

kind == "" { wrong("this stands in no text") }

/^\+/ {
    if (!(substr($0, 2) in base)) wrong("there is no base `" substr($0, 2) "`")
    body = body base[substr($0, 2)]
    size += size_of[substr($0, 2)]
    next
}

/^\|/ {
    if (kind == "each") put_each(expanded(substr($0, 2)))
    else add(expanded(substr($0, 2)) "\n")
    next
}

/^~/ {
    add(expanded(substr($0, 2)))
    next
}

/^\*/ {
    line = expanded(substr($0, length($1) + 2))
    for (i = 1; i <= substr($1, 2) + 0; i++) {
        numbered = line
        gsub(/#/, i, numbered)
        add(numbered "\n")
    }
    next
}

/^=/ {
    answer = answer (answer == "" ? "" : "\001") expanded(substr($0, 2))
    next
}

{ wrong("this has no meaning") }

END { if (!has_failed) finish() }
