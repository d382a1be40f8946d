# Prints what no text shows of what the format has: each request, wait and end line in a history that is legal, each reason for which a line is
# bad, and `turn`. The input has the rows of cases.awk, and of whole histories.

BEGIN {
    FS = "\t"
    n = split("create call return revoke bind info close dup unbind cred testcancel getparam setparam attach detach open await pipe write read" \
        " pcreate associate dissociate get getn send sendn alert tcreate tset tdelete advance interrupt kill fork exit" \
        " accept collect got found woken", events, " ")
    for (i = 1; i <= n; i++) missing["an event `" events[i] "`"] = 1
    n = split("cut size byte header word form range twice many unknown", reasons, " ")
    for (i = 1; i <= n; i++) missing["`bad line L " reasons[i] "`"] = 1
    n = split("complete stalled open", ends, " ")
    for (i = 1; i <= n; i++) missing["`end " ends[i] "`"] = 1
    n = split("process child name proc path #", others, " ")
    for (i = 1; i <= n; i++) missing["a line `" others[i] "`"] = 1
    missing["`want turn`"] = 1
}

{
    if ($2 ~ /^= bad/) {
        split($2, part, " ")
        delete missing["`bad line L " part[5] "`"]
    }
    if ($2 ~ /\001want turn\001/) delete missing["`want turn`"]
    if ($2 ~ /^= legal/) read_history($1)
}

function read_history(file,    line, part) {
    while ((getline line <file) > 0) {
        split(line, part, " ")
        if (line ~ /^[0-9]/) delete missing["an event `" part[4] "`"]
        else if (part[1] == "end") delete missing["`end " part[2] "`"]
        else delete missing["a line `" part[1] "`"]
    }
    close(file)
}

END { for (what in missing) print what }
