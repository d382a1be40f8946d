# Writes changed texts of a legal history into the folder `to`, and for each a row: its file, a tab, and what is wanted of it. `name` is what the
# files are called after. Where `few` is set, only three bytes of each answer are changed, and nothing else.
#
# The first file, FILE.changes, has what is wanted of the changes of bytes that do not show in their own line: its rows are
# `LINE FROM TO VERDICT`, where FROM and TO count the bytes of the line, and VERDICT is `legal`, `bad L REASON` or `illegal L`. Each byte is
# changed to the next printable one. What is wanted is one of
#
#   = TEXT       this answer, with \001 for a line feed between two lines of it
#   illegal L    line L is illegal: `have` has the line as it stands, and `want` another
#   at L         line L is bad or illegal

BEGIN { for (i = 32; i < 127; i++) printable = printable sprintf("%c", i) }

FILENAME ~ /changes$/ {
    if ($0 ~ /^[0-9]/) for (i = $2; i <= $3; i++) listed[$1, i] = listed_verdict()
    next
}

{ line[++lines] = $0 }

function listed_verdict() {
    if ($4 == "bad") return bad($5, $6)
    return $4 == "illegal" ? "illegal " $5 : "legal"
}

function kind(k) {
    if (k == 1) return "header"
    if (line[k] ~ /^ *(#|$)/) return "comment"
    return line[k] ~ /^[0-9]/ ? "event" : line[k] ~ /^end / ? "end" : "declaration"
}

# How many events the first k lines have.
function events_of(k,    n) {
    for (n = 0; k > 0; k--) if (kind(k) == "event") n++
    return n
}

# The line of the next event after line k, or of the end line.
function next_told(k) {
    for (k++; kind(k) != "event" && kind(k) != "end"; k++);
    return k
}

function text(from, upto,    all) {
    all = ""
    for (; from <= upto; from++) all = all line[from] "\n"
    return all
}

function put(what, changed, wanted,    file) {
    file = to "/" name "_" what
    printf "%s", changed >file
    close(file)
    print file "\t" (wanted == "legal" ? "= legal " events_of(lines) : wanted)
}

function bad(k, reason) { return "= bad line " k " " reason }

# The answer where a line in good form stands in place of the kernel's, which is line k.
function other_line(k, have) { return "= illegal line " k "\001want " line[k] "\001have " have }

# Where the answer of an event begins: after the first ` = ` that stands in no string.
function answer_at(k,    rest, at) {
    rest = line[k]
    at = 1
    while (match(rest, /"([^"\\]|\\.)*"| = /)) {
        at += RSTART + RLENGTH - 1
        if (substr(rest, RSTART, RLENGTH) == " = ") return at
        rest = substr(rest, RSTART + RLENGTH)
    }
}

function with_byte(k, i) {
    return substr(line[k], 1, i - 1) substr(printable, index(printable, substr(line[k], i, 1)) % 95 + 1, 1) substr(line[k], i + 1)
}

function change_byte(k, i, wanted) { put("line_" k "_byte_" i, text(1, k - 1) with_byte(k, i) "\n" text(k + 1, lines), wanted) }

function change_answer(k, i) { change_byte(k, i, other_line(k, with_byte(k, i))) }

function change_bytes(k,    i, answer) {
    answer = kind(k) == "event" ? answer_at(k) : length(line[k]) + 1
    for (i = 1; i < answer; i++) {
        change_byte(k, i, (k, i) in listed ? listed[k, i] : "at " k)
        delete listed[k, i]
    }
    for (; i <= length(line[k]); i++) change_answer(k, i)
}

function change_few(k,    from, size) {
    if (kind(k) != "event") return
    from = answer_at(k)
    size = length(line[k]) - from + 1
    change_answer(k, from)
    if (size > 2) change_answer(k, from + int(size / 2))
    if (size > 1) change_answer(k, from + size - 1)
}

function cut(k,    i) {
    if (k < lines) put("cut_after_line_" k, text(1, k), "= legal " events_of(k))
    for (i = 1; i <= length(line[k]); i++) put("cut_in_line_" k "_after_byte_" i, text(1, k - 1) substr(line[k], 1, i), bad(k, "cut"))
}

function replaced(k, other) { return text(1, k - 1) other "\n" text(k + 1, lines) }

# Bytes and spaces that have no place in the line; in a comment spaces have one.
function misspell(k,    form) {
    form = kind(k) == "header" ? bad(1, "header") : kind(k) == "comment" ? "legal" : bad(k, "form")
    put("line_" k "_space_before", replaced(k, " " line[k]), form)
    put("line_" k "_space_behind", replaced(k, line[k] " "), form)
    put("line_" k "_two_spaces", replaced(k, substr(line[k], 1, index(line[k], " ")) " " substr(line[k], index(line[k], " ") + 1)), form)
    put("line_" k "_other_line_feed", replaced(k, line[k] "\r"), bad(k, "byte"))
}

# Without its line feed a line goes on with the next.
function join(k,    wanted) {
    if (kind(k) == "comment") return
    wanted = bad(k, k == lines ? "cut" : k == 1 ? "header" : "form")
    if (kind(k) == "event" && k < lines) wanted = other_line(k, line[k] line[k + 1])
    put("line_" k "_joined", text(1, k - 1) line[k] text(k + 1, lines), wanted)
}

function double(k,    wanted) {
    wanted = bad(k + 1, kind(k) == "declaration" ? "twice" : "word")
    if (kind(k) == "comment") wanted = "legal"
    if (kind(k) == "event") wanted = "illegal " (k + 1)
    put("line_" k "_doubled", text(1, k) text(k, lines), wanted)
}

# The number of each later event is another one than the kernel's.
function drop(k) {
    if (kind(k) == "event") put("line_" k "_dropped", text(1, k - 1) text(k + 1, lines), "illegal " (next_told(k) - 1))
    if (kind(k) == "end") put("line_" k "_dropped", text(1, k - 1) text(k + 1, lines), "legal")
}

function comment_all(    k, all) {
    all = line[1] "\n"
    for (k = 2; k <= lines; k++) all = all "\n   \n" line[k] "\n# after line " k "\n"
    put("with_comments", all, "legal")
}

END {
    put("whole", text(1, lines), "legal")
    for (k = 1; k <= lines; k++) {
        if (few) {
            change_few(k)
            continue
        }
        change_bytes(k)
        cut(k)
        misspell(k)
        join(k)
        double(k)
        drop(k)
    }
    if (!few) comment_all()
    for (at in listed) {
        split(at, part, SUBSEP)
        put("line_" part[1] "_byte_" part[2] "_listed", "", "a byte that is there, in no answer")
    }
}
