#!/bin/sh
# Runs the built program on scripts and compares what it writes, its exit status and its error stream. `rt ci` leaves the
# program in crates/doors/out, so this comes after it. A word names another program.
#
# tests/COMMAND/NAME.in is an input of `doors COMMAND`, and so is tests/COMMAND/SUBJECT/NAME.in. NAME.out is the output, or NAME.end what the output ends with,
# NAME.status the status, 0 where there is none, and NAME.err, where it is there, exactly what is on the error stream. examples/NAME.doors is played to NAME.trace, which `check` finds legal, and
# illegal with a change. In the pages a block that begins with ```doors is a script, and the next that begins with ```trace
# is what `play` writes for it. In the tutorial a row of a table that begins with a script has the last line of that.
#
# Threads make many traces of one script: what `run` writes for tests/run/NAME.in without NAME.out is to be one that `check`
# finds legal and that `play` makes again from its turns, and NAME.status has each status that may come. Every script of the
# other commands and of the pages is run so too.
#
# tests/tools.sh, which this calls, tests the tools beside the program, and tests/tools has its charts; tests/pages.sh tests the pages as
# texts. tests/edits.sh, which this calls too, looks whether the wrong bodies of tests/edits still fit the code.

# Each page has at least one script.
pages="README.md docs/use/TUTORIAL.md docs/use/VERSION_2.md docs/use/VERSION_3.md docs/use/VERSION_4.md docs/use/FROM_C.md docs/use/RECIPES.md"

LC_ALL=C
export LC_ALL
top=$(cd "$(dirname "$0")/.." && pwd) || exit 1
case ${1-} in
"")
    set -- "$top/crates/doors/out/doors"
    # the same program as the second compiler builds it
    [ ! -f "$1.by-rattle" ] || set -- "$1" "$1.by-rattle"
    ;;
/*) ;;
*) set -- "$PWD/$1" ;;
esac
cd "$top" || exit 1
work=$(mktemp -d) || exit 1
trap 'rm -rf "$work"' EXIT
trap 'exit 1' HUP INT TERM
passed=0
failed=0
cases=0
seen=

pass() { passed=$((passed + 1)); }

# fail NAME WHY
fail() {
    failed=$((failed + 1))
    echo "$program: $1: $2"
}

# What ends a program that waits without end, with status 124, where the system has it.
most=
if command -v timeout >"$work/timeout"; then most="timeout 120"; fi

# run WORD..: over the standard input.
run() { $most "$program" "$@" >"$work/out" 2>"$work/err"; }

# Whether the error stream is as it is to be at this status: one line at 5, 6 and 7; at 3 two; at 1, 2, 4, 8 and 9 a message, and
# warnings after it; at 0 warnings, if anything. The lines below a message or a warning are indented.
is_told() {
    case $1 in
    3) [ "$(wc -l <"$work/err")" -eq 2 ] || return ;;
    5 | 6 | 7) [ "$(wc -l <"$work/err")" -eq 1 ] || return ;;
    esac
    case $1 in
    1 | 2 | 3 | 4 | 5 | 6 | 7 | 8 | 9) [ "$(grep -c '^doors: ' "$work/err")" -eq $(($(grep -c '^doors: warning: ' "$work/err") + 1)) ] || return ;;
    *) [ "$(grep -c '^doors: ' "$work/err")" -eq "$(grep -c '^doors: warning: ' "$work/err")" ] || return ;;
    esac
    ! grep -Eqv '^(doors: |    )' "$work/err" && [ "$(tail -c 1 "$work/err" | wc -c)" -eq "$(tail -c 1 "$work/err" | wc -l)" ]
}

# judge NAME FOUND STATUS TEXT: of the last run, whose status was FOUND.
judge() {
    seen="$seen $3"
    if [ "$2" -ne "$3" ]; then
        fail "$1" "status $2, and $3 is wanted"
    elif ! cmp -s "$work/out" "$4"; then
        fail "$1" "another output than $4:"
        diff "$4" "$work/out" | head -n 6
    elif ! is_told "$3"; then
        fail "$1" "the error stream has $(wc -l <"$work/err") lines: $(head -n 1 "$work/err")"
    else
        pass
    fi
}

# judge_told TEXT: the error stream of the last run.
judge_told() {
    if cmp -s "$work/err" "$1"; then
        pass
    else
        fail "$1" "another error stream:"
        diff "$1" "$work/err" | head -n 8
    fi
}

# Keeps of the last output as much of its end as the text has.
keep_end() {
    tail -c "$(wc -c <"$1")" "$work/out" >"$work/tail"
    mv "$work/tail" "$work/out"
}

# The statuses that an input NAME may have.
statuses_of() {
    if [ -f "$1.status" ]; then cat "$1.status"; else echo 0; fi
}

# Each NAME.in of the folder, which is named for the command, and of the folders in it.
folder() {
    for input in "tests/$1"/*.in "tests/$1"/*/*.in; do
        [ -f "$input" ] || continue
        cases=$((cases + 1))
        name=${input%.in}
        text=$name.out
        run "$1" <"$input"
        found=$?
        [ ! -f "$name.err" ] || judge_told "$name.err"
        if [ -f "$name.end" ]; then
            text=$name.end
            keep_end "$text"
        fi
        if [ "$1" = run ] && [ ! -f "$text" ]; then
            judge_run "$input" $found "$(statuses_of "$name")" "$input"
            judge_replay "$input" $found "$input"
        else
            judge "$input" $found "$(statuses_of "$name")" "$text"
        fi
    done
}

examples() {
    for input in examples/*.doors; do
        run play <"$input"
        judge "$input" $? 0 "${input%.doors}.trace"
        run show <"$input"
        cp "$work/out" "$work/shown"
        if [ "$(head -n 1 "$work/shown")" = "$(head -n 1 "$input")" ]; then pass; else fail "$input, shown" "no script"; fi
        run show <"$work/shown"
        judge "$input, shown again" $? 0 "$work/shown"
    done
}

# Writes an input of `check` for each change of the trace of an example into TO: each line cut, doubled, and exchanged with
# the next, and each byte of the middle line changed to the next printable one. Prints for each the first line that is
# another one than in the trace, the file's name, and what stands in that line now. No two lines of
# a trace are the same, since events are numbered: so a change begins where its line stands, and a doubled one a line later.
changes() {
    awk -v to="$2" '
        function text(from, upto,    i, all) {
            all = ""
            for (i = from; i <= upto; i++) all = all lines[i] "\n"
            return all
        }
        function put(name, line, trace,    stands) {
            split(trace, stands, "\n")
            printf "%s", script "trace\n" trace >(to "/" name)
            close(to "/" name)
            print line, name, stands[line]
        }
        BEGIN { for (i = 32; i < 127; i++) printable = printable sprintf("%c", i) }
        FILENAME ~ /doors$/ { script = script $0 "\n"; next }
        { lines[++n] = $0 }
        END {
            for (i = 1; i <= n; i++) {
                put("line_" i "_cut", i, text(1, i - 1) text(i + 1, n))
                put("line_" i "_doubled", i + 1, text(1, i) text(i, n))
                if (i < n) put("line_" i "_exchanged", i, text(1, i - 1) lines[i + 1] "\n" lines[i] "\n" text(i + 2, n))
            }
            middle = int((n + 1) / 2)
            line = lines[middle]
            for (i = 1; i <= length(line); i++) {
                next_one = substr(printable, index(printable, substr(line, i, 1)) % 95 + 1, 1)
                lines[middle] = substr(line, 1, i - 1) next_one substr(line, i + 1)
                put("byte_" i "_of_line_" middle, middle, text(1, n))
            }
        }' "$1" "${1%.doors}.trace"
}

# Of each example: its trace is legal, and each changed one illegal at exactly the first line that differs.
changed_traces() {
    to=$work/changed
    mkdir -p "$to"
    for input in examples/*.doors; do
        trace=${input%.doors}.trace
        echo "legal $(grep -c '^[0-9]' "$trace")" >"$work/legal"
        { cat "$input" && echo trace && cat "$trace"; } >"$to/whole"
        run check <"$to/whole"
        judge "$input with its trace" $? 0 "$work/legal"
        changes "$input" "$to" >"$work/table"
        [ -s "$work/table" ] || fail "$input" "no changes of its trace"
        while IFS=' ' read -r line name stands; do
            run check <"$to/$name"
            found=$?
            { IFS= read -r first && IFS= read -r want && IFS= read -r have; } <"$work/out" || first="no three lines"
            if [ $found -ne 9 ] || ! is_told 9; then
                fail "$input, $name" "status $found, and 9 is wanted"
            elif [ "$first" != "illegal line $line" ] || [ "$have" != "have${stands:+ $stands}" ]; then
                fail "$input, $name" "'$first' and '$have', where line $line is '$stands'"
            elif [ "${want#want}" = "$want" ] || [ "$want" = "want${stands:+ $stands}" ]; then
                fail "$input, $name" "'$want' where '$have'"
            else
                pass
            fi
        done <"$work/table"
    done
}

# The status that goes with a trace, or with the line for a bad script.
status_of() {
    case $(tail -n 1 "$1") in
    "end complete "*) echo 0 ;;
    "end stalled "*) echo 1 ;;
    "bad line "*) echo 2 ;;
    "end budget "*) echo 4 ;;
    "refused turn "*) echo 8 ;;
    *) echo 255 ;;
    esac
}

# An input of `check`: the script, whose last line may lack its line feed, and the trace.
with_trace() {
    cat "$1"
    [ -z "$(tail -c 1 "$1")" ] || echo
    echo trace
    cat "$2"
}

# is_one_of WORD WORDS
is_one_of() { case " $2 " in *" $1 "*) ;; *) return 1 ;; esac; }

# judge_run NAME FOUND STATUSES SCRIPT: the last output, with the status FOUND, is to be the trace of a legal run of the
# script with a line `tail N` behind it, and its status one of these. Leaves the trace in $work/ran, and the same without
# the line `tail N` in $work/trace.
judge_run() {
    cp "$work/out" "$work/ran"
    sed '$d' "$work/ran" >"$work/trace"
    echo "legal $(grep -c '^[0-9]' "$work/ran")" >"$work/legal"
    seen="$seen $2"
    if ! is_one_of "$2" "$3"; then
        fail "$1" "status $2, and one of '$3' is wanted"
    elif [ "$(tail -n 1 "$work/ran" | cut -c 1-5)" != "tail " ]; then
        fail "$1" "no line 'tail N' at the end"
    elif [ "$2" -ne "$(status_of "$work/trace")" ]; then
        fail "$1" "status $2, and the run's last line is $(tail -n 1 "$work/trace")"
    elif ! is_told "$2"; then
        fail "$1" "the error stream has $(wc -l <"$work/err") lines: $(head -n 1 "$work/err")"
    else
        with_trace "$4" "$work/ran" >"$work/to_check"
        run check <"$work/to_check"
        judge "$1, checked" $? 0 "$work/legal"
    fi
}

# The canonical text of the script, with the turns of the trace as its schedule, in lines of 16 names.
with_turns() {
    "$program" show <"$1" 2>"$work/said" | sed '/^schedule /d'
    awk '/^[0-9]/ { line = line " " $2; if (++n % 16 == 0) { print "schedule" line; line = "" } }
        END { if (line != "") print "schedule" line }' "$2"
}

# judge_replay NAME STATUS SCRIPT: of the run that was judged last, what `play` makes of its turns.
judge_replay() {
    with_turns "$3" "$work/ran" >"$work/replay"
    run play <"$work/replay"
    judge "$1, replayed" $? "$2" "$work/trace"
}

# What `run` makes of a script: the line of `play` where that is one for a bad script, and else a legal run. A schedule is
# passed over, so that a refused one tells nothing of it.
run_as_play() {
    run play <"$1"
    cp "$work/out" "$work/played"
    run run <"$1"
    found=$?
    case $(head -n 1 "$work/played") in
    "bad line "*) judge "run of $1" $found 2 "$work/played" ;;
    *)
        judge_run "run of $1" $found "0 1 4" "$1"
        judge_replay "run of $1" $found "$1"
        ;;
    esac
}

# Every script that there is.
runs() {
    for input in examples/*.doors tests/play/*/*.in tests/show/*.in "$work"/*.md/*.in; do
        run_as_play "$input"
    done
}

# Runs of one script, each of them legal, and illegal at the line that is cut: a line of the trace that changes from run to run.
many_runs() {
    input=tests/run/four_clients_of_two_servers.in
    i=0
    while [ $i -lt 200 ]; do
        i=$((i + 1))
        run run <"$input"
        judge_run "$input, run $i" $? 0 "$input"
        cut=$((i % ($(wc -l <"$work/trace") - 1) + 1))
        sed "${cut}d" "$work/ran" >"$work/cut"
        with_trace "$input" "$work/cut" >"$work/to_check"
        run check <"$work/to_check"
        found=$?
        if [ $found -eq 9 ] && [ "$(head -n 1 "$work/out")" = "illegal line $cut" ]; then
            pass
        else
            fail "$input, run $i without line $cut" "status $found, $(head -n 1 "$work/out")"
        fi
    done
}

# hundred_runs NAME..: of each of these scripts, all of them legal.
hundred_runs() {
    for name in "$@"; do
        input=tests/run/$name.in
        i=0
        while [ $i -lt 100 ]; do
            i=$((i + 1))
            run run <"$input"
            judge_run "$input, run $i" $? "$(statuses_of "tests/run/$name")" "$input"
        done
    done
}

# Scripts in which callers and servers leave.
leaving_runs() {
    hundred_runs two_clients_interrupted client_and_server_killed exits_in_procedures private_door_revoked_under_load
}

# Scripts in which references to a door fall to one again and again.
notice_runs() {
    hundred_runs notices_of_two_clients last_client_ends_the_server references_dropped_by_interrupts_and_kills
    hundred_runs notices_of_a_private_door_that_is_revoked
}

# Scripts in which associations fire, and are replaced and withdrawn, and threads compute.
association_runs() {
    hundred_runs three_writers_and_one_that_selects replaced_and_withdrawn_while_others_take last_writer_goes_in_many_ways
    hundred_runs four_workers four_workers four_workers_behind_a_door
}

# Scripts in which others than those who wait move the clock, and clients share a name table.
timer_and_cache_runs() {
    hundred_runs three_that_advance_and_three_that_look time_out_of_a_call timers_of_a_process_that_is_killed cache_of_four_clients
}

# A door that has 4000 notices before the first of them is accepted.
many_notices() {
    {
        printf '%s\n' 'doors script 1' 'process p' 'thread t' 'create d p 0 unref-multi' 'repeat 4000' 'dup e $d' 'close $e' end
        printf '%s\n' serve end 'proc p' 'return ""' end
    } >"$work/notices.in"
    awk '
        function line(text) { print ++events, "t t", text }
        BEGIN {
            line("create ok fd 0")
            for (i = 1; i <= 4000; i++) { line("dup ok fd 1"); line("close ok") }
            line("return wait")
            for (i = 1; i <= 4000; i++) { line("accept enter n" i " p 0 unref"); line("return wait") }
            print "end complete " events
        }' >"$work/notices.out"
    echo "legal 16002" >"$work/legal"
    run play <"$work/notices.in"
    judge "4000 notices" $? 0 "$work/notices.out"
    with_trace "$work/notices.in" "$work/notices.out" >"$work/to_check"
    run check <"$work/to_check"
    judge "4000 notices, checked" $? 0 "$work/legal"
    run run <"$work/notices.in"
    judge_run "4000 notices, run" $? 0 "$work/notices.in"
}

# chain CUT: writes into TO a script in which a client calls t62, whose procedure calls t61, and so on down to t1, and the caller of
# the call CUT, 1 to 62, is interrupted when t1 has accepted; and its trace. Below the cut each thread returns to its caller, the
# first of them to nobody; the caller at the cut has EINTR, and returns, as all above it do.
chain() {
    awk -v to="$1" -v cut="$2" '
        function name(i) { return i == 63 ? "c" : "t" i }
        function line(i, root, text) { print ++events, name(i), root, text >trace }
        function scheduled(who,    text) { turns = turns " " who }
        BEGIN {
            script = to "/chain.in"
            trace = to "/chain.out"
            at = 64 - cut
            print "doors script 1" >script
            for (i = 1; i <= 62; i++) {
                print "process p" i "\nthread t" i "\ncreate d f 0\nattach $d d" i "\nserve\nend\nproc f" >script
                if (i > 1) print "open e d" i - 1 "\ncall r $e \"\"" >script
                print "return \"\"\nend" >script
                for (k = 1; k <= 3; k++) scheduled("t" i)
                line(i, name(i), "create ok fd 0")
                line(i, name(i), "attach ok")
                line(i, name(i), "return wait")
            }
            print "process pc\nthread c\nopen e d62\ncall r $e \"\"\nend" >script
            print "process px\nthread x\ninterrupt " name(at) "\nend" >script
            scheduled("c")
            scheduled("c")
            line(63, "c", "open ok fd 0")
            line(63, "c", "call wait c1")
            for (i = 62; i >= 1; i--) {
                scheduled("t" i)
                line(i, "c", "accept enter c" 63 - i " f 0 \"\"")
                if (i > 1) {
                    scheduled("t" i)
                    scheduled("t" i)
                    line(i, "c", "open ok fd 1")
                    line(i, "c", "call wait c" 64 - i)
                }
            }
            scheduled("x")
            scheduled("x")
            print ++events, "x x interrupt ok" >trace
            print ++events, "x x exit ok" >trace
            for (i = 1; i <= 63; i++) {
                root = i < at ? name(at - 1) : "c"
                if (i > 1) line(i, root, "collect " (i == at ? "EINTR" : "ok \"\""))
                line(i, root, i == 63 ? "exit ok" : "return wait")
            }
            print "end complete " events >trace
            print "schedule" turns >script
        }'
}

cut_chains() {
    cut=0
    while [ $cut -lt 62 ]; do
        cut=$((cut + 1))
        chain "$work" $cut
        run play <"$work/chain.in"
        judge "a chain of 62 servers, cut at call $cut" $? 0 "$work/chain.out"
        with_trace "$work/chain.in" "$work/chain.out" >"$work/to_check"
        echo "legal $(grep -c '^[0-9]' "$work/chain.out")" >"$work/legal"
        run check <"$work/to_check"
        judge "a chain of 62 servers, cut at call $cut, checked" $? 0 "$work/legal"
    done
}

# limited KIB WORD..: the program in so much address space, with stacks of 8192 KiB. 125 where the system has no such limits.
limited() (
    { ulimit -s 8192 && ulimit -v "$1"; } 2>"$work/no_limit" || exit 125
    if [ "$1" -le 9000 ] && dd if=/dev/zero of=/dev/null bs=8388608 count=1 2>"$work/no_limit"; then exit 125; fi
    shift
    run "$@"
)

# Starts of threads that the system refuses, as there is no room for some or all of their stacks. Where there is none for the
# program either, it ends with 5.
refused_starts() {
    input=tests/run/four_clients_of_two_servers.in
    for size in 9000 14000 24000 32000 40000 60000; do
        limited $size run <"$input"
        found=$?
        case $found in
        125) ;;
        5)
            judge "$input in $size KiB" 5 5 "$work/nothing"
            ;;
        *)
            judge_run "$input in $size KiB" $found 0 "$input"
            [ $size -gt 9000 ] || judge_tail "$input in $size KiB"
            ;;
        esac
    done
}

# Of the last run: the calling thread took all turns.
judge_tail() {
    if [ "$(tail -n 1 "$work/ran")" = "tail $(grep -c '^[0-9]' "$work/ran")" ]; then
        pass
    else
        fail "$1" "$(tail -n 1 "$work/ran"), where no thread could be started"
    fi
}

# Writes the page's scripts and traces into TO/N.in and TO/N.out, a line for each block without the other into TO/lone, and
# how many pairs there are.
pairs() {
    awk -v to="$2" '
        function lone(what) { print what " in line " begun >(to "/lone") }
        inside == "" && /^[ \t]+```(doors|trace)/ { begun = NR; lone("an indented block") }
        inside == "" && /^```/ {
            inside = /^```doors/ ? "in" : /^```trace/ ? "out" : "other"
            if (inside == "in" && waits) lone("no trace for the script")
            if (inside != "other") begun = NR
            if (inside == "in") { n++; waits = 1 }
            if (inside == "out" && !waits) { lone("no script for the trace"); inside = "other" }
            if (inside == "out") waits = 0
            if (inside != "other") printf "" >(to "/" n "." inside)
            next
        }
        inside != "" && /^```[ \t]*$/ { inside = ""; next }
        inside == "in" || inside == "out" { print >(to "/" n "." inside) }
        END {
            if (inside != "") lone("no end of the block")
            if (waits) lone("no trace for the script")
            print n + 0
        }' "$1"
}

page() {
    to=$work/$(basename "$1")
    mkdir -p "$to"
    count=0
    [ ! -f "$1" ] || count=$(pairs "$1" "$to")
    if [ "$count" -eq 0 ]; then
        fail "$1" "no script and trace there"
    fi
    if [ -f "$to/lone" ]; then
        fail "$1" "$(cat "$to/lone")"
        rm "$to/lone"
        return
    fi
    i=0
    while [ $i -lt "$count" ]; do
        i=$((i + 1))
        run play <"$to/$i.in"
        judge "$1, script $i" $? "$(status_of "$to/$i.out")" "$to/$i.out"
    done
}

# Rows of a page that begin with | `SCRIPT` | `LAST` | `TOLD` | or | `SCRIPT` | `LAST` | nothing |: the last line that `play` writes
# for the script, which has no header there and " / " for a line feed, and a line of the error stream, without what it begins with.
rows() {
    mkdir -p "$work/rows"
    awk -F' [|] ' -v to="$work/rows" '
        function plain(cell) {
            gsub(/^([|] )?`|`$/, "", cell)
            return cell
        }
        /^\| `[^`]*` \| `[^`]*` \| (`[^`]*`|nothing) \|/ {
            n++
            script = plain($1)
            gsub(" / ", "\n", script)
            print "doors script 1\n" script >(to "/" n ".in")
            print plain($2) >(to "/" n ".last")
            print plain($3) >(to "/" n ".told")
            close(to "/" n ".in")
            close(to "/" n ".last")
            close(to "/" n ".told")
        }
        END { print n + 0 }' "$1" >"$work/count"
    count=$(cat "$work/count")
    [ "$count" -gt 0 ] || fail "$1" "no rows of a script and its last line"
    i=0
    while [ $i -lt "$count" ]; do
        i=$((i + 1))
        run play <"$work/rows/$i.in"
        found=$?
        tail -n 1 "$work/out" >"$work/last"
        mv "$work/last" "$work/out"
        judge "$1, row $i" $found "$(status_of "$work/rows/$i.last")" "$work/rows/$i.last"
        sed 's/^doors: //; s/^    //' "$work/err" >"$work/told"
        [ -s "$work/told" ] || echo nothing >"$work/told"
        if grep -Fxqf "$work/rows/$i.told" "$work/told"; then
            pass
        else
            fail "$1, row $i" "the error stream has not '$(cat "$work/rows/$i.told")': $(head -n 1 "$work/told")"
        fi
    done
}

# The manual pages, where the system has mandoc: its lint has nothing to say of them.
manuals() {
    if ! command -v mandoc >"$work/mandoc"; then return; fi
    for manual in docs/man/*.[15]; do
        mandoc -T lint "$manual" >"$work/lint" 2>&1
        if [ -s "$work/lint" ]; then fail "$manual" "$(head -n 1 "$work/lint")"; else pass; fi
    done
}

# The commands of the first page that need no more than the program, as at the top of a clone that has it on the PATH.
first_page() {
    to=$work/first
    mkdir -p "$to/bin"
    ln -sf "$top/examples" "$top/tools" "$to"
    ln -sf "$program" "$to/bin/doors"
    grep -E '^    (doors|tools/|\{) ?' README.md >"$to/commands"
    (cd "$to" && rm -f first-* && PATH=$to/bin:$PATH DOORS=$program sh -e ./commands) >"$work/out" 2>"$work/err"
    found=$?
    head -n "$(wc -l <examples/first.trace)" "$work/out" >"$work/played"
    if [ $found -ne 0 ] || [ "$(wc -l <"$to/commands")" -lt 4 ]; then
        fail "README.md" "its commands end with status $found: $(head -n 1 "$work/err")"
    elif ! cmp -s "$work/played" examples/first.trace || [ "$(tail -n 1 "$work/out")" != "legal 10" ] || [ ! -s "$to/first-1.trace" ]; then
        fail "README.md" "its commands give something else: $(tail -n 1 "$work/out")"
    else
        pass
    fi
}

# told TEXT WORD..: such words are no command, and this is what the error stream says of them.
told() {
    printf '    %s\n' "$1" >"$work/below"
    shift
    usage "$@"
    tail -n +2 "$work/err" >"$work/told"
    if cmp -s "$work/told" "$work/below"; then pass; else fail "the words '$*'" "the error stream has $(cat "$work/told")"; fi
}

# usage WORD..: such words are no command, and nothing is read.
usage() {
    echo "usage: doors play|run|show|check|load N" >"$work/usage"
    {
        run "$@"
        judge "the words '$*'" $? 3 "$work/usage"
        cat >"$work/rest"
    } <"$echo_script"
    if cmp -s "$work/rest" "$echo_script"; then pass; else fail "the words '$*'" "some of the input was read"; fi
}

words() {
    told "no command is given"
    told "there is no command 'walk': there are play, run, show, check and load" walk
    told "there is no command 'plai': there are play, run, show, check and load" plai
    told "there is no command 'Run': there are play, run, show, check and load" Run
    told "'try.doors' is a word too many: the input is no word, but comes after '<', as in: doors play < FILE" play try.doors
    told "'script' is a word too many: the input is no word, but comes after '<', as in: doors play < FILE" check script trace
    told "after 'load' one word stands, a number from 1 to 16000" load
    told "'01' is no N of 'load N': N is a number from 1 to 16000, without a sign or zeros before it" load 01
    told "after 'load' one word stands, a number from 1 to 16000" load 1 2
    told "there is no command '\\xc3\\xa9': there are play, run, show, check and load" "$(printf '\303\251')"
    usage PLAY
    usage "play "
    usage ""
    usage play play
    usage play show
    usage show play
    usage check check
    usage check play
    usage show check
    usage CHECK
    usage " check"
    usage load 0
    usage load 16001
    usage load 100000000000000000001
    usage load -1
    usage load +1
    usage load 1x
    usage load ""
    usage load " 1"
    usage LOAD 1
    usage 1 load
    usage RUN
    usage "run "
    usage run run
    usage run play
    usage play run
    usage run 2
    usage --help
    usage "$(printf '\377')"
}

# The line of a load, of each twice. A call has six events, the server three more, and each of the clients, of which there are
# four or as many as calls, two. Nothing is read.
loads() {
    for calls in 1 2 3 4 5 1000 16000; do
        clients=$((calls < 4 ? calls : 4))
        echo "load $calls calls $calls ok $calls events $((6 * calls + 3 + 2 * clients)) end complete" >"$work/load"
        for time in first second; do
            {
                run load $calls
                judge "load $calls, the $time time" $? 0 "$work/load"
                cat >"$work/rest"
            } <"$echo_script"
            if cmp -s "$work/rest" "$echo_script"; then pass; else fail "load $calls" "some of the input was read"; fi
        done
    done
    run load $calls <&-
    judge "load $calls with a closed input" $? 0 "$work/load"
}

# A kill at each turn of a nested call: `check` finds legal what `play` writes.
killed_at_each_turn() {
    for input in tests/play/leaving/server_killed_at_turn_*_of_a_nested_call.in; do
        run play <"$input"
        cp "$work/out" "$work/killed"
        echo "legal $(grep -c '^[0-9]' "$work/killed")" >"$work/legal"
        with_trace "$input" "$work/killed" >"$work/input"
        run check <"$work/input"
        judge "$input with its trace" $? 0 "$work/legal"
    done
}

# A reader of the output that goes away after the first byte.
readers_that_go() {
    input=tests/play/schedules/sixteen_thousand_calls.in
    for word in play run; do
        { "$program" $word <"$input" 2>"$work/err"; echo $? >"$work/found"; } | head -c 1 >"$work/first"
        : >"$work/out"
        judge "$word to a reader that goes" "$(cat "$work/found")" 7 "$work/nothing"
    done
}

# Output that cannot be written, and input that cannot be read.
faults() {
    for word in play run show check "load 3" walk; do
        input=$echo_script
        [ "$word" != check ] || input=$checked
        "$program" $word <"$input" >/dev/full 2>"$work/err"
        found=$?
        : >"$work/out"
        judge "$word to a full output" $found 7 "$work/nothing"
        "$program" $word <"$input" 2>"$work/err" >&-
        found=$?
        : >"$work/out"
        judge "$word to a closed output" $found 7 "$work/nothing"
    done
    for word in play run show check; do
        run $word <&-
        judge "$word of a closed input" $? 6 "$work/nothing"
        run $word <tests
        judge "$word of a folder" $? 6 "$work/nothing"
    done
}

# A header, and empty lines up to so many bytes.
empty_lines() {
    printf 'doors script 1\n'
    dd if=/dev/zero bs=$(($1 - 15)) count=1 2>"$work/dd" | tr '\000' '\n'
}

sizes() {
    empty_lines 1048576 >"$work/longest"
    empty_lines 1048577 >"$work/too_long"
    echo "bad line 0 size" >"$work/size"
    echo "end complete 0" >"$work/complete"
    printf 'doors script 1\nbudget 100000\n' >"$work/canonical"
    run play <"$work/longest"
    judge "play of 1048576 bytes" $? 0 "$work/complete"
    run run <"$work/longest"
    judge_run "run of 1048576 bytes" $? 0 "$work/longest"
    run show <"$work/longest"
    judge "show of 1048576 bytes" $? 0 "$work/canonical"
    for word in play run show check; do
        run $word <"$work/too_long"
        judge "$word of 1048577 bytes" $? 2 "$work/size"
    done
    # the limit is the script's, and not the trace's
    printf 'trace\nend complete 0\n' >"$work/trace"
    echo "legal 0" >"$work/legal"
    echo "bad line 1048563 trace" >"$work/no_trace"
    run check <"$work/longest"
    judge "check of 1048576 bytes without a trace" $? 2 "$work/no_trace"
    cat "$work/longest" "$work/trace" >"$work/checked"
    run check <"$work/checked"
    judge "check of a script of 1048576 bytes" $? 0 "$work/legal"
    cat "$work/too_long" "$work/trace" >"$work/checked"
    run check <"$work/checked"
    judge "check of a script of 1048577 bytes" $? 2 "$work/size"
    { echo && cat "$work/longest" "$work/trace"; } >"$work/checked"
    run check <"$work/checked"
    judge "check of 1048577 bytes without a header" $? 2 "$work/size"
    # one byte above the limit of the whole input
    { printf 'doors script 1\ntrace\n' && head -c 403701740 /dev/zero; } | run check
    judge "check of 403701761 bytes" $? 2 "$work/size"
    # an input that grows as long as it is read: a writer that stops only where nothing reads any more
    for word in play run show check; do
        yes '' 2>"$work/yes" | run $word
        judge "$word of an input that never ends" $? 2 "$work/size"
    done
    dd if=/dev/zero bs=1048577 count=1 2>"$work/dd" | tr '\000' 'x' >"$work/line"
    { printf 'doors script 1\ntrace\n' && cat "$work/line"; } >"$work/checked"
    { printf 'illegal line 1\nwant end complete 0\nhave ' && cat "$work/line" && echo; } >"$work/long_line"
    run check <"$work/checked"
    judge "check of a line of 1048577 bytes" $? 9 "$work/long_line"
}

# Writes the file with a write for each byte, far enough apart that each is read by itself.
slowly() {
    size=$(wc -c <"$1")
    at=0
    while [ $at -lt "$size" ]; do
        dd if="$1" bs=1 skip=$at count=1 2>"$work/dd"
        at=$((at + 1))
    done
}

byte_by_byte() {
    slowly "$echo_script" | run play
    judge "play byte by byte" $? 0 examples/echo.trace
    slowly "$echo_script" | run run
    judge_run "run byte by byte" $? 0 "$echo_script"
    slowly "$checked" | run check
    judge "check byte by byte" $? 0 "${checked%.in}.out"
}

every_status() {
    for status in 0 1 2 3 4 6 7 8 9; do
        case "$seen " in
        *" $status "*) pass ;;
        *) fail "status $status" "no case wants it" ;;
        esac
    done
}

# counted TEST WORD..: a test that counts for itself.
counted() {
    sh "$@" >"$work/counted"
    sed '$d' "$work/counted"
    counts=$(tail -n 1 "$work/counted")
    case $counts in
    *[0-9]" passed, "[0-9]*" failed")
        passed=$((passed + ${counts%% passed*}))
        counts=${counts#* passed, }
        failed=$((failed + ${counts% failed}))
        ;;
    *) fail "$1" "its last line is '$counts'" ;;
    esac
}

echo_script=examples/echo.doors
checked=tests/check/thread_that_exits.in
: >"$work/nothing"
for program in "$@"; do
    if [ ! -f "$program" ] || [ ! -x "$program" ]; then
        fail "not there" "rt ci builds the program"
        continue
    fi
    seen=
    folder play
    folder run
    folder show
    folder check
    examples
    changed_traces
    for page in $pages; do page "$page"; done
    rows docs/use/TUTORIAL.md
    first_page
    runs
    many_runs
    leaving_runs
    notice_runs
    association_runs
    timer_and_cache_runs
    many_notices
    cut_chains
    refused_starts
    words
    loads
    killed_at_each_turn
    readers_that_go
    faults
    sizes
    byte_by_byte
    every_status
    manuals
done
# the tools beside the program, with the first of the programs
if [ -x "$1" ]; then counted tests/tools.sh "$1"; fi
if sh tests/edits.sh; then pass; else fail "tests/edits.sh" "a wrong body does not fit the code"; fi
echo "$cases cases of $(ls -d tests/play tests/run tests/show tests/check | tr '\n' ' ')with $# programs"
echo "$passed passed, $failed failed"
[ "$failed" -eq 0 ]
