# Says which word of a pattern no line of a trace can have; nothing where each may be there. The input is the script, and the
# pattern is PATTERN in the environment.
#
# Words are compared whole: what blanks, brackets, bars and the ends of the pattern enclose, outside of quotes. They are looked at in
# a pattern that has the word of an event or begins with `^end`; and, where it is plain words and no expression, in one that has an
# error or the answer `wait` or `ok`. Others may be for data.

function gather(list, into,    part, n, i) {
    n = split(list, part, " ")
    for (i = 1; i <= n; i++) into[part[i]] = 1
}

BEGIN {
    gather("create call return revoke bind unbind info getparam setparam cred testcancel exit close dup attach detach open await" \
        " pipe write read pcreate associate dissociate get getn send sendn alert interrupt kill fork work tcreate tset tdelete advance" \
        " ncd accept collect woken got found done", is_event)
    gather("enter wait ok yes no fd process grown unref user alert timer in out err hup none max query local revoked private end complete" \
        " stalled budget refused turn tail target proc cookie attr unique E2BIG EAGAIN EBADF EBADFD EBUSY EINTR EINVAL EMFILE" \
        " ENFILE ENOBUFS ENOENT ENOTSUP EPERM EPIPE ETIME", is_other)
}

/^ *#/ { next }

{
    if ($1 == "thread" || $1 == "spare") gather($2, is_thread)
    if ($1 == "proc" || $1 == "process" || $1 == "child") gather($2, is_declared)
    gsub(/[^A-Za-z0-9_]+/, " ")
    n = split($0, part, " ")
    for (i = 1; i <= n; i++) in_script[part[i]] = 1
}

# The pattern with a blank around what ends a word, and a star for what may be anything; nothing where a group is a part of a word
# and has blanks.
function plain(pattern) {
    gsub(/\\./, "*", pattern)
    gsub(/\[[^]]*\]/, "*", pattern)
    gsub(/"[^"]*("|$)/, "*", pattern)
    gsub(/[^ (|)^]+\([^ ()]*\)[^ (|)$]*/, "*", pattern)
    gsub(/\([^ ()]*\)[^ (|)$]+/, "*", pattern)
    if (pattern ~ /[^ (|^]\(/ || pattern ~ /\)[^ )|$]/) return ""
    gsub(/[()|$^]/, " & ", pattern)
    return pattern
}

# Whether the pattern is words alone, with strings, and may be tied to an end of the line.
function is_words(pattern) {
    gsub(/"[^"]*("|$)/, "", pattern)
    return pattern ~ /^\^?[A-Za-z0-9_: -]*\$?$/
}

function is_known(word) { return (word in is_event) || (word in is_other) || (word in in_script) }

function is_judged(word) {
    if (word in is_event) return 1
    if (!words_alone) return 0
    return word == "wait" || word == "ok" || (word ~ /^E[A-Z0-9]+$/ && word in is_other)
}

function is_whole_name(name) { return name ~ /^[a-z][a-z0-9_]*$/ && name !~ /^[cn][0-9]+$/ && !(name in is_event) && !(name in is_other) }

# Whether the word before an event's is that of no thread: `y collect`, as the pattern begins, or `x y collect`.
function is_no_thread(i) {
    if (i < 2 || !(part[i] in is_event) || !is_whole_name(part[i - 1]) || (part[i - 1] in is_thread)) return 0
    return i == 2 || part[i - 2] == "(" || part[i - 2] == "|" || is_whole_name(part[i - 2])
}

END {
    pattern = plain(ENVIRON["PATTERN"])
    words_alone = is_words(ENVIRON["PATTERN"])
    n = split(pattern, part, " ")
    judged = pattern ~ /^ *\^ +end( |$)/
    for (i = 1; i <= n; i++) if (is_judged(part[i])) judged = 1
    for (i = 1; judged && i <= n; i++) {
        if (part[i] ~ /^[A-Za-z][A-Za-z0-9_]*$/ && part[i] !~ /^[cn][0-9]+$/ && !is_known(part[i])) {
            print part[i] ": neither the script nor a trace has this word"
            exit
        }
        if (is_no_thread(i)) {
            print part[i - 1] ": there is no such thread"
            exit
        }
    }
}
