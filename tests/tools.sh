#!/bin/sh
# Tests of the tools beside the program, chart, again and hunt, with each awk that the system has: tests/program.sh calls it. The
# first word is the program. The last line is `N passed, N failed`.
#
# tests/tools/NAME.doors is a script, NAME.trace what `play` writes of it, and NAME.columns, NAME.mermaid and NAME.msc are its
# charts, which were looked at: those of mscgen as pictures. In the pages a block that begins with ```chart or ```mermaid is what
# `chart` draws of the script and the trace before it; words after `chart` or `mermaid` are options.

LC_ALL=C
export LC_ALL
top=$(cd "$(dirname "$0")/.." && pwd) || exit 1
cd "$top" || exit 1
DOORS=${1-crates/doors/out/doors}
case $DOORS in
/*) ;;
*) DOORS=$top/$DOORS ;;
esac
export DOORS
work=$(mktemp -d) || exit 1
trap 'rm -rf "$work"' EXIT
trap 'exit 1' HUP INT TERM
passed=0
failed=0

pass() { passed=$((passed + 1)); }

# fail NAME WHY
fail() {
    failed=$((failed + 1))
    echo "$1: $2"
}

# tool NAME WORD..: its output, error stream and status are kept.
tool() {
    tools/"$@" >"$work/out" 2>"$work/err"
    status=$?
}

# same NAME TEXT: the last output is this text, with status 0 and nothing on the error stream.
same() {
    if [ $status -ne 0 ] || [ -s "$work/err" ]; then
        fail "$1" "status $status: $(head -n 1 "$work/err")"
    elif ! cmp -s "$work/out" "$2"; then
        fail "$1" "another output than $2:"
        diff "$2" "$work/out" | head -n 6
    else
        pass
    fi
}

# refused NAME STATUS TEXT: the last one has no output, this status, and one line on the error stream, with this text in it.
refused() {
    if [ $status -ne "$2" ]; then
        fail "$1" "status $status, and $2 is wanted"
    elif [ -s "$work/out" ] || [ "$(wc -l <"$work/err")" -ne 1 ]; then
        fail "$1" "output, or not one line on the error stream"
    elif ! grep -q -F -e "$3" "$work/err"; then
        fail "$1" "$(head -n 1 "$work/err"), and '$3' is wanted"
    else
        pass
    fi
}

# An awk of each kind that is there, as a file that AWK may name.
awks() {
    for kind in awk mawk gawk original-awk "busybox awk"; do
        echo x | $kind '{ print }' >"$work/found" 2>&1 || continue
        file=$work/$(echo "$kind" | tr ' ' _)
        printf '#!/bin/sh\nexec %s "$@"\n' "$kind" >"$file"
        chmod +x "$file"
        echo "$file"
    done
}

# Each chart of tests/tools, with each awk; and the trace is what `play` writes, and again after `again`.
charts() {
    for script in tests/tools/*.doors; do
        name=${script%.doors}
        # what is wrong, in words, may stand on the error stream
        "$DOORS" play <"$script" >"$work/out" 2>"$work/words"
        status=0
        : >"$work/err"
        same "$script, played" "$name.trace"
        for AWK in $(awks); do
            export AWK
            for form in columns mermaid msc; do
                tool chart --$form "$script" "$name.trace"
                same "$name.$form with $(basename "$AWK")" "$name.$form"
            done
            replay "$script with $(basename "$AWK")" "$script" "$name.trace"
        done
    done
    unset AWK
}

# replay NAME SCRIPT TRACE: `play` makes the trace of what `again` makes.
replay() {
    tool again "$2" "$3"
    cp "$work/out" "$work/again"
    [ $status -eq 0 ] || fail "$1, again" "status $status: $(head -n 1 "$work/err")"
    "$DOORS" play <"$work/again" >"$work/out" 2>"$work/words"
    status=0
    : >"$work/err"
    sed '/^tail /d' "$3" >"$work/trace"
    same "$1, again" "$work/trace"
}

# The form without an option, the standard input as the trace, and a part of a chart.
options() {
    script=tests/tools/leaves.doors
    trace=tests/tools/leaves.trace
    tool chart $script $trace
    same "chart without a form" tests/tools/leaves.columns
    tool chart $script - <$trace
    same "chart of the standard input" tests/tools/leaves.columns
    tool again $script - <$trace
    cp "$work/out" "$work/again"
    tool again $script $trace
    same "again of the standard input" "$work/again"
    { cat $trace && echo "tail 3"; } >"$work/tailed"
    tool chart $script "$work/tailed"
    same "chart of a trace with a tail" tests/tools/leaves.columns
    tool again $script "$work/tailed"
    same "again of a trace with a tail" "$work/again"
    tool chart --from 13 --to 15 $script $trace
    same "chart of a part" tests/tools/leaves.part
    for name in chart again hunt; do
        tool $name -h
        if [ $status -eq 0 ] && [ ! -s "$work/err" ] && grep -q "^$name " "$work/out"; then pass; else fail "$name -h" "status $status"; fi
    done
}

# What is no script or no trace, and bad use.
refusals() {
    script=tests/tools/loops.doors
    trace=tests/tools/loops.trace
    for name in chart again; do
        for words in "" "x" "x y z" "--walk x y" "-n x y" "- x"; do
            tool $name $words
            refused "$name $words" 3 "usage: $name "
        done
        tool $name $trace $trace
        refused "$name of no script" 2 "$name: $trace: line 1: no script"
        tool $name $script $script
        refused "$name of no trace" 2 "$name: $script: line 1: no trace"
        tool $name $work/none $trace
        refused "$name of a script that is not there" 2 "$work/none"
        tool $name $script tests
        refused "$name of a folder" 2 "tests"
        : >"$work/empty"
        tool $name "$work/empty" $trace
        refused "$name of an empty script" 2 "no script"
        tool $name $script "$work/empty"
        refused "$name of an empty trace" 2 "no trace"
        head -c 3000 "$DOORS" >"$work/bytes"
        tool $name "$work/bytes" $trace
        refused "$name of a program as script" 2 "no script"
        tool $name $script "$work/bytes"
        refused "$name of a program as trace" 2 "no trace"
        traces_changed $name
        scripts_changed $name
    done
    for words in "--from" "--from x" "--to -1" "--to 1x" "--from 1 --msc"; do
        tool chart $words
        refused "chart $words" 3 "usage: chart "
    done
    tool chart --from 35 $script $trace
    refused "chart from an event that is not there" 2 "none from 35"
    # another script's trace
    tool chart tests/tools/waits.doors $trace
    refused "chart of another script's trace" 2 "no trace of tests/tools/waits.doors"
    # a thread that does something else than its lines say
    sed '5s/open ok fd 0/dup ok fd 0/' $trace >"$work/other"
    tool chart $script "$work/other"
    refused "chart of another command" 2 "line 5: no trace of $script, \`c\` stands at line 16 of the script"
}

# changed_in FILE NAME SED TEXT: the script tests/tools/FILE.doors so changed does not fit its trace any more.
changed_in() {
    sed "$3" "tests/tools/$1.doors" >"$work/$1.doors"
    cmp -s "tests/tools/$1.doors" "$work/$1.doors" && fail "chart, $2" "nothing is changed"
    for AWK in $(awks); do
        export AWK
        tool chart "$work/$1.doors" "tests/tools/$1.trace"
        refused "chart, $2, with $(basename "$AWK")" 2 "$4"
    done
    unset AWK
}

changed() { changed_in fits "$@"; }

# A script that was changed after its trace was made.
changed_scripts() {
    changed "another thread interrupted" 's/interrupt ann/interrupt bob/' "nothing in the script interrupts c1"
    changed "another thread interrupted at a port" 's/interrupt loop/interrupt ann/' "nothing in the script interrupts \`loop\`"
    changed "another procedure" 's/create door fetch 7/create door other 7/' "c1 is a call of \`other\`"
    changed "another cookie" 's/create door fetch 7/create door fetch 8/' "the cookie 8"
    changed "other data" 's/"bin"/"sbin"/' 'passes "sbin"'
    changed "other results" 's/return "done"/return "gone"/' 'the results of c2 are "gone"'
    changed_in timers "another moment" 's/tset 0 3 0/tset 0 5 0/' 'no timer of the script has `timer:0:1:7` queued there'
    changed_in timers "shorter advances" 's/advance 2/advance 1/' "line 8: no trace"
    changed_in timers "another user value" 's/tcreate $port 9/tcreate $port 10/' 'no timer of the script has `timer:1:10:9` queued there'
    changed_in timers "another interval" '11s/tset 1 1 1/tset 1 1 2/' "line 23: no trace"
    changed_in timers "a lower version" '1s/4/3/' '`ncd` is no command of version 3'
    changed_in timers "the lowest version" '1s/4/1/' '`tcreate` is no command of version 1'
    changed_in timers "no version" '1s/4/5/' "line 1: no script"
    sed '5s/open ok fd 0/open ENOENT/' tests/tools/fits.trace >"$work/other"
    tool chart tests/tools/fits.doors "$work/other"
    refused "chart of a call without a descriptor" 2 "line 6: no trace of tests/tools/fits.doors, no descriptor is there"
    tool chart --from 26 tests/tools/fits.doors tests/tools/fits.trace
    same "chart of the last events" tests/tools/fits.part
}

# Lines that are cut, doubled, or end in a carriage return.
traces_changed() {
    for line in 1 2 17 34 35; do
        for change in d p 's/$/x\r/' 's/^/ /'; do
            sed "$line$change" $trace >"$work/other"
            tool "$1" $script "$work/other"
            # the last line but one that is doubled: an event after the last of the budget
            refused "$1 of a trace with line $line $change" 2 "no trace"
        done
    done
}

# Mistakes of a script.
scripts_changed() {
    for change in '2s/^/\t/' '4s/^/x/' '6s/create/creat/' '8s/serve/serve "/' '24s/end//' '13s/cli/srv/' '14s/c$/s/' '24s/.*/proc e/' '6s/ e / f /'; do
        sed "$change" $script >"$work/other"
        tool "$1" "$work/other" $trace
        refused "$1 of a script with $change" 2 "no script"
    done
}

# `again` of each example, and of each refused turn and used up budget; `chart` of everything that `play` writes.
every_trace() {
    for script in examples/*.doors; do
        replay "$script" "$script" "${script%.doors}.trace"
    done
    for script in tests/play/*/*.in; do
        [ -f "${script%.in}.out" ] || continue
        case $(tail -n 1 "${script%.in}.out") in
        "refused turn "* | "end budget "*) replay "$script" "$script" "${script%.in}.out" ;;
        "end "*) ;;
        *) continue ;;
        esac
        tool chart "$script" "${script%.in}.out"
        if [ $status -eq 0 ] && [ ! -s "$work/err" ]; then pass; else fail "chart of $script" "$(head -n 1 "$work/err")"; fi
    done
}

# A schedule of so many turns that comments have no room, and one that has none.
long_schedules() {
    {
        printf 'doors script 1\nprocess p\nthread a_thread_of_name\n  repeat 50000\n    testcancel\n  end\nend\n'
        awk 'BEGIN { for (i = 0; i < 6000; i++) print "# a comment of 40 bytes and some more of it" }'
    } >"$work/long.doors"
    "$DOORS" play <"$work/long.doors" >"$work/long.trace"
    replay "a long schedule" "$work/long.doors" "$work/long.trace"
    sed 's/50000/90000/' "$work/long.doors" >"$work/longer.doors"
    "$DOORS" play <"$work/longer.doors" >"$work/long.trace"
    tool again "$work/longer.doors" "$work/long.trace"
    refused "a schedule without room" 2 "90001 turns have no room"
}

# A program whose runs have the order a b, and b a each third time, so that what is found does not hang on the system.
unlikely() {
    cat >"$work/unlikely" <<'END'
#!/bin/sh
if [ "$1" = run ]; then
    echo x >>"$COUNT"
    order="a b"
    [ $(($(wc -l <"$COUNT") % 3)) -ne 0 ] || order="b a"
    { awk '{ print }' && echo "schedule $order"; } | "$REAL" play && echo "tail 0"
else
    exec "$REAL" "$@"
fi
END
    chmod +x "$work/unlikely"
    printf 'doors script 1\nprocess p\nthread a\nend\nthread b\nend' >"$work/two.doors"
}

# hunted WORD..: `hunt` in a folder of its own.
hunted() {
    : >"$COUNT"
    (cd "$work/kept" && "$top/tools/hunt" "$@") >"$work/out" 2>"$work/err"
    status=$?
}

# says NAME STATUS LINE..: the last output has these lines, with this status, and nothing on the error stream.
says() {
    what=$1
    wanted=$2
    shift 2
    if [ $status -ne "$wanted" ] || [ -s "$work/err" ]; then
        fail "$what" "status $status: $(head -n 1 "$work/err")"
        return
    fi
    for line in "$@"; do
        if ! grep -q -x -F -e "$line" "$work/out"; then
            fail "$what" "no line '$line'"
            return
        fi
    done
    pass
}

hunts() {
    unlikely
    mkdir "$work/kept"
    REAL=$DOORS
    COUNT=$work/count
    export REAL COUNT
    DOORS=$work/unlikely
    hunted '^1 b' "$work/two.doors"
    says "hunt" 0 "run 3: legal 2, and play of two-1.doors makes the same trace" "1 b b exit ok" "different orders of turns: 2, runs: 3" \
        "kept: two-1.trace, two-1.doors, two-1.chart" "1  |             exit" "end complete 2"
    printf '1 b b exit ok\n2 a a exit ok\nend complete 2\n' | cmp -s - "$work/kept/two-1.trace" || fail "hunt" "another trace is kept"
    "$REAL" play <"$work/kept/two-1.doors" >"$work/out"
    same "what hunt kept, played" "$work/kept/two-1.trace"
    tool chart "$work/two.doors" "$work/kept/two-1.trace"
    same "what hunt kept, drawn" "$work/kept/two-1.chart"
    hunted -v '^1 a' "$work/two.doors"
    says "hunt -v" 0 "run 3: legal 2, and play of two-2.doors makes the same trace" "different orders of turns: 2, runs: 3"
    hunted -n 2 '^1 b' "$work/two.doors"
    says "hunt -n 2" 1 "no line matches in 2 runs" "different orders of turns: 1, runs: 2"
    hunted -v -n 7 'exit ok$' "$work/two.doors"
    says "hunt -v -n 7" 1 "a line matches in each of 7 runs" "different orders of turns: 2, runs: 7"
    [ "$(ls "$work/kept" | wc -l)" -eq 6 ] || fail "hunt" "other files than six are kept"
    hunts_refused
    DOORS=$REAL
    hunts_real
}

# Patterns for tests/tools/fits.doors, each with the word that is told; and such as are not told.
misspelled='
colect EINTR|colect
an collect EINTR|an
collect EINT|EINT
collect EITNR|EITNR
collect E|E
^end stale|stale
anne collect EINTR|anne
an interrupt ok|an
collect (EINT|EBADF)|EINT
ann accept enter c1 fetsh 7|fetsh
karl call wait|karl
fetch collect ok|fetch
^[0-9]+ ann ann collect EINTTR$|EINTTR
'
not_told='
colect
ann colect
ann interupt
end staled
ann collect EINTR
ann collect EINT.*
ann collect E(INTR|BADF)
(col|conn)ect EINTTR
ann colect E.*
x
entri of rot
ann collect ok "entri of
(ann|bob) ann collect
^end (stalled|budget) [0-9]+ ann$
c1 fetch 7
'

# With each awk. No line of a trace is told.
hunts_misspelled() {
    fits=tests/tools/fits.doors
    for AWK in $(awks); do
        export AWK
        echo "$misspelled" | grep . >"$work/rows"
        # a bar within the pattern stands before the last
        sed 's/|\([^|]*\)$/\t\1/' "$work/rows" >"$work/cells"
        while IFS="$(printf '\t')" read -r pattern word; do
            hunted -n 1 "$pattern" "$top/$fits"
            refused "hunt of $pattern with $(basename "$AWK")" 3 "fits.doors: $word: "
        done <"$work/cells"
        echo "$not_told" | grep . >"$work/rows"
        cat tests/tools/fits.trace >>"$work/rows"
        while read -r pattern; do
            PATTERN=$pattern "$AWK" -f tools/pattern.awk $fits >"$work/out" 2>"$work/err"
            status=$?
            : >"$work/empty"
            same "hunt of $pattern with $(basename "$AWK")" "$work/empty"
        done <"$work/rows"
    done
    unset AWK
}

hunts_refused() {
    for words in "" "x" "x y z" "-n 0 x y" "-n 1x x y" "-n" "-w x y"; do
        hunted $words
        refused "hunt $words" 3 "usage: hunt "
    done
    hunted '(' "$work/two.doors"
    refused "hunt of a bad expression" 3 "no regular expression"
    loops=$top/tests/tools/loops.doors
    for pattern in 'c c collect EINTR' '^[0-9]+ c (c|karl) colect' '^end (stalled|budget) [0-9]+ c$' 'accept enter c1 e 0 "karl"'; do
        hunted -n 1 "$pattern" "$loops"
        [ "$status" -ne 3 ] || fail "hunt of $pattern" "$(head -n 1 "$work/err")"
    done
    hunted 'karl karl collect EINTR' "$loops"
    refused "hunt of no thread" 3 "karl: neither the script nor a trace has this word"
    hunted '^end stalled.* karl$' "$loops"
    refused "hunt of no thread at the end" 3 "karl: neither the script nor a trace has this word"
    hunted '^[0-9]+ c c collect EINTTR$' "$loops"
    refused "hunt of no error" 3 "EINTTR: neither the script nor a trace has this word"
    hunted 'ann ann tset okk' "$top/tests/tools/timers.doors"
    refused "hunt of no answer" 3 "okk: neither the script nor a trace has this word"
    hunted 'cl cl collect' "$loops"
    refused "hunt of a part of a thread" 3 "cl: neither the script nor a trace has this word"
    hunted 'e e collect' "$loops"
    refused "hunt of what is no thread" 3 "e: there is no such thread"
    hunts_misspelled
    hunted x "$work/none"
    refused "hunt of a script that is not there" 2 "none: it cannot be read"
    hunted "$loops" x
    refused "hunt of a script before the pattern" 2 "x: it cannot be read; PATTERN comes before SCRIPT"
    echo "doors script 1" >"$work/bad.doors"
    echo "proces p" >>"$work/bad.doors"
    DOORS=$REAL
    hunted x "$work/bad.doors"
    grep '^hunt: ' "$work/err" >"$work/last"
    cp "$work/last" "$work/err"
    refused "hunt of a bad script" 2 "hunt: bad line 2 word"
    DOORS=$work/none
    hunted x "$work/two.doors"
    refused "hunt without a program" 3 "there is no such program"
    # a run that is illegal, and one that is played to something else
    sed 's/&& echo "tail 0"/| sed "s,exit,open,"/' "$work/unlikely" >"$work/illegal"
    sed 's/    exec /    [ $1 != play ] || set check \&\& exec /' "$work/unlikely" >"$work/strange"
    chmod +x "$work/illegal" "$work/strange"
    DOORS=$work/illegal
    hunted x "$work/two.doors"
    hunted open "$work/two.doors"
    refused "hunt of an illegal run" 9 "the trace is not legal: illegal line 1"
    DOORS=$work/strange
    hunted '^1 a' "$work/two.doors"
    refused "hunt of a run that play does not make" 9 "another trace"
    DOORS=$work/unlikely
}

# With the program itself, which is found in each of three places.
hunts_real() {
    hunted -n 5 'accept enter c1 e 0' "$top/tests/tools/loops.doors"
    says "hunt with the program" 0 "kept: loops-1.trace, loops-1.doors, loops-1.chart"
    hunted -n 1 'tick tick ncd ok "bad"' "$top/tests/tools/timers.doors"
    says "hunt of a name table" 0 "kept: timers-1.trace, timers-1.doors, timers-1.chart"
    unset DOORS
    mkdir "$work/tools"
    cp tools/* "$work/tools"
    cp "$REAL" "$work/tools/doors"
    (cd "$work/kept" && "$work/tools/hunt" -n 1 exit "$work/two.doors") >"$work/out" 2>"$work/err"
    status=$?
    says "hunt with a program beside it" 0 "kept: two-3.trace, two-3.doors, two-3.chart"
    mkdir "$work/path"
    mv "$work/tools/doors" "$work/path/doors"
    (cd "$work/kept" && PATH=$work/path:$PATH && export PATH && "$work/tools/hunt" -n 1 exit "$work/two.doors") >"$work/out" 2>"$work/err"
    status=$?
    says "hunt with a program on the path" 0 "kept: two-4.trace, two-4.doors, two-4.chart"
    DOORS=$REAL
    export DOORS
}

# Writes the page's scripts, traces and charts into TO/N.doors, TO/N.trace and TO/N.K.chart, and a line `N.K OPTION ..` for each
# chart, which is of the last script and the last trace before it.
drawn_in() {
    awk -v to="$2" '
        /^```/ && file != "" { close(file); file = ""; next }
        /^```doors/ { file = to "/" ++pair ".doors"; chart = 0 }
        /^```trace/ { file = to "/" pair ".trace" }
        /^```(chart|mermaid)/ {
            file = to "/" pair "." ++chart ".chart"
            line = $0
            sub(/^```[a-z]*/, "", line)
            print pair "." chart (/^```mermaid/ ? " --mermaid" : "") line
        }
        /^```[a-z]/ { if (file == "") file = to "/other"; printf "" >file; next }
        file != "" { print >file }' "$1"
}

# The charts in the pages; the tutorial has some.
pictures() {
    for page in README.md docs/*/*.md; do
        to=$work/drawn/$(basename "$page")
        mkdir -p "$to"
        drawn_in "$page" "$to" >"$to/list"
        if [ "$page" = docs/use/TUTORIAL.md ] && [ ! -s "$to/list" ]; then fail "$page" "no chart there"; fi
        while read -r number options; do
            pair=$to/${number%.*}
            tool chart $options "$pair.doors" "$pair.trace"
            same "$page, chart $number" "$to/$number.chart"
        done <"$to/list"
    done
}

charts
pictures
options
refusals
changed_scripts
every_trace
long_schedules
hunts
echo "$passed passed, $failed failed"
[ "$failed" -eq 0 ]
