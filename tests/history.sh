#!/bin/sh
# Runs the built program `doorlab` on histories and compares its verdicts, its exit statuses and its error stream. `rt ci` leaves the program
# in crates/doorlab/out, so this comes after it. A word names another program.
#
# Each trace of examples/ and of tests/play is made a history with its script: tests/history/convert.awk follows the script's threads, and
# so has the operands of each event. It is legal, and with a change of one answer illegal. Left out are scripts with tasks and name tables, for
# which histories have no place; they are told before the last line.
#
# tests/history has whole histories. With NAME.changes beside it NAME.history is changed in each way of tests/history/changes.awk: each
# byte, each line, and cut after each byte. Of the others some bytes of each answer are changed. tests/history/cases has short texts, each
# with its answer: of each reason for which a line is bad, of each request, and of what is illegal.

LC_ALL=C
export LC_ALL
top=$(cd "$(dirname "$0")/.." && pwd) || exit 1
case ${1-} in
"")
    set -- "$top/crates/doorlab/out/doorlab"
    # the same program as the second compiler builds it
    [ ! -f "$1.by-rattle" ] || set -- "$1" "$1.by-rattle"
    ;;
/*) ;;
*) set -- "$PWD/$1" ;;
esac
cd "$top" || exit 1
work=$(mktemp -d) || exit 1
trap 'rm -rf "$work"' EXIT
trap 'exit 1' HUP INT TERM
passed=0
failed=0
seen=
tab=$(printf '\t')

pass() { passed=$((passed + 1)); }

# fail NAME WHY
fail() {
    failed=$((failed + 1))
    echo "$program: $1: $2"
}

# What ends a program that waits without end, with status 124, where the system has it.
most=
if command -v timeout >"$work/timeout"; then most="timeout 300"; fi

# ---- texts with their verdicts

# A row for each: the file, a tab, and what is wanted of it, as tests/history/changes.awk has it.
table=$work/table

# made AWK WORD..: the rows that an awk file makes; one more, which fails, where it comes to no end.
made() {
    file=tests/history/$1
    shift
    awk -f "$file" "$@" || echo "$file${tab}an end of $file"
}

# Each script with its trace. Of a few scripts of tests/play only the end of the trace is kept.
traces() {
    for script in examples/*.doors; do echo "$script ${script%.doors}.trace"; done
    for script in tests/play/*/*.in; do [ ! -f "${script%.in}.out" ] || echo "$script ${script%.in}.out"; done
}

converted() {
    mkdir "$work/converted"
    traces >"$work/traces"
    made convert.awk -f tests/history/script.awk -f tests/history/follow.awk -f tests/history/requests.awk -v to="$work/converted" \
        -v left="$work/left" "$work/traces"
}

# Of each trace there is a history, or it is told why not: the trace is a line for a bad script, or the script has a command that histories
# have not. Leaves in $names those scripts.
judge_converted() {
    without=0
    names=
    count=$(grep -c "$tab= legal " "$table")
    all=$((count + $(wc -l <"$work/left")))
    if [ $all -eq "$(wc -l <"$work/traces")" ]; then pass; else fail "the traces" "not each has a history or a reason"; fi
    while read -r why script; do
        if [ "$why" = tasks ] && grep -Eq '^ *(work|ncd) ' "$script"; then
            names="$names ${script##*/}"
        elif [ "$why" = none ] && IFS= read -r line <"${script%.in}.out" && [ "${line#bad line }" != "$line" ]; then
            without=$((without + 1))
        else
            fail "$script" "no history is made of its trace"
            continue
        fi
        pass
    done <"$work/left"
}

# Whole histories with their changes.
changed() {
    mkdir "$work/changed"
    : >"$work/none.changes"
    for history in tests/history/*.history; do
        name=$(basename "$history" .history)
        if [ -f "${history%.history}.changes" ]; then
            made changes.awk -v to="$work/changed" -v name="$name" "${history%.history}.changes" "$history"
        else
            made changes.awk -v few=1 -v to="$work/changed" -v name="$name" "$work/none.changes" "$history"
        fi
    done
}

cases() {
    mkdir "$work/cases"
    made cases.awk -v to="$work/cases" tests/history/cases
}

# Something of each kind that the format has.
judge_covered() {
    { cat "$work/cases.table" && grep "_whole$tab" "$table"; } | awk -f tests/history/covered.awk >"$work/missing"
    if [ -s "$work/missing" ]; then fail "no text shows" "$(cat "$work/missing")"; else pass; fi
}

# Bytes 0, where they are all of a line, a part of it, and at its end.
zeros() {
    printf 'doors history 1\n\000\n' >"$work/zero"
    printf 'doors history 1\npath x "\000"\n' >"$work/zero_inside"
    printf 'doors history 1\n# ok\000\n' >"$work/zero_behind"
    for name in zero zero_inside zero_behind; do echo "$work/$name$tab= bad line 2 byte"; done
}

# long NAME COUNT REQUEST LINE.. VERDICT: a thread's COUNT events with this request and its answer, and the lines behind them.
long() {
    name=$work/$1
    awk -v count="$2" -v asked="$3" 'BEGIN {
        print "doors history 1\nprocess p limit 0 thread t"
        for (i = 1; i <= count; i++) print i " t t " asked
    }' >"$name"
    shift 3
    while [ $# -gt 1 ]; do
        echo "$1" >>"$name"
        shift
    done
    echo "$name$tab= $1"
}

# As many events as there may be, and one more; and the clock, which moves as long as it has not passed 1000000000.
longest() {
    long million 1000000 "cred = EINVAL" "end open 1000000" "legal 1000000"
    long million_and_one 1000000 "cred = EINVAL" "1000001 nobody nobody cred = EINVAL" "bad line 1000003 many"
    long clock 100000 "advance 10000 = ok" "100001 t t advance 1 = ok" "100002 t t cred = EINVAL" "legal 100002"
    long clock_passed 100000 "advance 10000 = ok" "100001 t t advance 1 = ok" "100002 nobody t advance 1 = ok" "bad line 100004 range"
    long clock_passed_by_much 100000 "advance 10000 = ok" "100001 t t advance 10000 = ok" "100002 t t advance 1 = ok" "bad line 100004 range"
}

# answers PROGRAM: for each text what the program writes, and a line `status N`. The table is its input meanwhile, of which it reads nothing.
answers() {
    # ends a program that goes on without end
    ulimit -t 120 2>"$work/no_limit"
    while IFS=$tab read -r text _; do
        "$1" history "$text"
        echo "status $?"
    done <"$table"
}

# judge_answers NUMBER: of the program of this number.
judge_answers() {
    awk -f tests/history/judge.awk "$table" "$work/answers.$1" >"$work/judged"
    counts=$(tail -n 1 "$work/judged")
    passed=$((passed + ${counts% *}))
    failed=$((failed + ${counts#* }))
    [ "${counts#* }" -eq 0 ] || echo "$program:"
    sed '$d' "$work/judged" | head -n 40
    if [ -s "$work/errors.$1" ]; then fail "the error stream" "$(head -n 1 "$work/errors.$1")"; else pass; fi
}

# ---- the command line

# run WORD..: over the standard input.
run() { $most "$program" "$@" >"$work/out" 2>"$work/err"; }

# judge NAME FOUND STATUS OUTPUT MESSAGE: of the last run, whose status was FOUND. MESSAGE is the line on the error stream behind `doorlab: `.
judge() {
    seen="$seen $3"
    printf '%s' "${4:+$4
}" >"$work/text"
    printf '%s' "${5:+doorlab: $5
}" >"$work/message"
    if [ "$2" -ne "$3" ]; then
        fail "$1" "status $2, and $3 is wanted"
    elif ! cmp -s "$work/out" "$work/text"; then
        fail "$1" "the output is '$(cat "$work/out")', and '$4' is wanted"
    elif ! cmp -s "$work/err" "$work/message"; then
        fail "$1" "the error stream has '$(cat "$work/err")', and '$5' is wanted"
    else
        pass
    fi
}

# usage MESSAGE WORD..: such words are no command, and nothing is read.
usage() {
    message=$1
    shift
    {
        run "$@"
        judge "the words '$*'" $? 3 "" "$message"
        cat >"$work/rest"
    } <"$legal"
    if cmp -s "$work/rest" "$legal"; then pass; else fail "the words '$*'" "some of the input was read"; fi
}

# help WORD..: tells of the commands, and nothing is read. The first line and the line of the usage are wanted.
help() {
    first=$1
    usage=$2
    shift 2
    run "$@" <"$legal"
    found=$?
    seen="$seen 0"
    if [ $found -ne 0 ] || [ -s "$work/err" ]; then
        fail "the words '$*'" "status $found, with $(wc -l <"$work/err") lines on the error stream"
    elif [ "$(head -n 1 "$work/out")" != "$first" ] || ! grep -Fxq "$usage" "$work/out"; then
        fail "the words '$*'" "not '$first' and '$usage'"
    else
        pass
    fi
}

words() {
    nothing="give a command: doorlab history FILE (doorlab --help tells more)"
    another="the first word is no command: there is doorlab history FILE (doorlab --help tells more)"
    no_file="give the file of the history, or - for the standard input: doorlab history FILE"
    too_many="a word is too many, or no option: doorlab history FILE (doorlab --help tells more)"
    usage "$nothing"
    usage "$another" walk
    usage "$another" help
    usage "$another" hist "$legal"
    usage "$another" History "$legal"
    usage "$another" "history " "$legal"
    usage "$another" "" "$legal"
    usage "$another" "$legal"
    usage "$another" - history
    usage "$no_file" history
    usage "$too_many" history "$legal" "$legal"
    usage "$too_many" history - -
    usage "$too_many" history -x
    usage "$too_many" history --file "$legal"
    usage "$too_many" --version
    usage "$too_many" -V
    usage "$too_many" -x history "$legal"
    help "judges what programs did at the kernel of doors" "Usage: doorlab <COMMAND>" --help
    help "judges what programs did at the kernel of doors" "Usage: doorlab <COMMAND>" -h
    help "whether a history is legal: each line is the one that the kernel gives at its place" "Usage: doorlab history <FILE>" history --help
}

inputs() {
    run history "$legal" </dev/null
    judge "a file" $? 0 "legal 15" ""
    run history "$legal" <&-
    judge "a file with a closed input" $? 0 "legal 15" ""
    run history - <"$legal"
    judge "the standard input" $? 0 "legal 15" ""
    while IFS= read -r line; do printf '%s\n' "$line"; done <"$legal" | run history -
    judge "line by line" $? 0 "legal 15" ""
    run history - </dev/null
    judge "an empty input" $? 2 "bad line 1 header" ""
    head -n 7 "$legal" | run history -
    judge "a part of the input" $? 0 "legal 1" ""
    run history - <"$bad"
    judge "a bad input" $? 2 "bad line 2 word" ""
    run history - <"$illegal"
    judge "an illegal input" $? 9 "$illegal_answer" ""
    cp "$legal" "$work/a history"
    run history "$work/a history"
    judge "a file with a space in its name" $? 0 "legal 15" ""
    run history "$work/not there"
    judge "a file that is not there" $? 6 "" "the file could not be opened"
    run history ""
    judge "a file without a name" $? 6 "" "the file could not be opened"
    run history "$legal/file"
    judge "a file in a file" $? 6 "" "the file could not be opened"
    run history tests
    judge "a folder" $? 6 "" "the history could not be read"
    run history - <tests
    judge "a folder as input" $? 6 "" "the history could not be read"
    run history - <&-
    judge "a closed input" $? 6 "" "the history could not be read"
}

# Output that cannot be written. With words that are no command there is none.
outputs() {
    for text in "$legal" "$bad" "$illegal"; do
        $most "$program" history "$text" >/dev/full 2>"$work/err"
        found=$?
        : >"$work/out"
        judge "$text to a full output" $found 7 "" "the standard output could not be written"
        $most "$program" history "$text" 2>"$work/err" >&-
        found=$?
        judge "$text to a closed output" $found 7 "" "the standard output could not be written"
    done
    $most "$program" --help >/dev/full 2>"$work/err"
    found=$?
    judge "help to a full output" $found 7 "" "the standard output could not be written"
    $most "$program" history >/dev/full 2>"$work/err"
    found=$?
    judge "no file to a full output" $found 3 "" "$no_file"
    $most "$program" history "$work/not there" >/dev/full 2>"$work/err"
    found=$?
    judge "no file there to a full output" $found 6 "" "the file could not be opened"
    : >"$work/err"
    $most "$program" walk >"$work/out" 2>/dev/full
    judge "a full error stream" $? 3 "" ""
    $most "$program" walk >"$work/out" 2>&-
    judge "a closed error stream" $? 3 "" ""
}

# An input for which there is no memory, where the system has such limits.
want_of_memory() {
    if ! (ulimit -v 40000) 2>"$work/no_limit"; then return; fi
    head -c 60000000 /dev/zero | (ulimit -v 40000 && run history -)
    judge "60000000 bytes in 40000 KiB" $? 5 "" "out of memory"
}

every_status() {
    for status in 0 2 3 6 7 9; do
        case "$seen " in
        *" $status "*) pass ;;
        *) fail "status $status" "no case wants it" ;;
        esac
    done
}

# ----

legal=tests/history/daemon.history
bad=$work/bad
illegal=$work/illegal
printf 'doors history 1\nwords\n' >"$bad"
printf 'doors history 1\nprocess p limit 0 thread t\n1 t t exit = EINVAL\n' >"$illegal"
illegal_answer="illegal line 3
want 1 t t exit = ok
have 1 t t exit = EINVAL"

program=tests/history
converted >"$table"
judge_converted
changed >>"$table"
cases >"$work/cases.table"
cat "$work/cases.table" >>"$table"
judge_covered
zeros >>"$table"
longest >>"$table"

number=0
for program in "$@"; do
    number=$((number + 1))
    if [ ! -f "$program" ] || [ ! -x "$program" ]; then
        fail "not there" "rt ci builds the program"
        continue
    fi
    answers "$program" >"$work/answers.$number" 2>"$work/errors.$number" &
done
wait

number=0
for program in "$@"; do
    number=$((number + 1))
    [ -f "$work/answers.$number" ] || continue
    seen=
    judge_answers $number
    words
    inputs
    outputs
    want_of_memory
    every_status
done
echo "$count traces are made histories; $without scripts are bad and have none; with tasks or name tables, and left out:$names" | fold -s -w 140
echo "$passed passed, $failed failed"
[ "$failed" -eq 0 ]
