# doord itself: statuses, options, the history's file, what is left behind.
# Read by tests/c.sh, which has the words that the cases use.

case_statuses() {
    run 'exit 7'
    ends 7
    gives
    run 'kill -9 $$'
    ends 137
    run 'kill -TERM $$'
    ends 143
    doord_alone -o h -- no_such_command
    ends 127
    says 'doord: no_such_command: No such file or directory'
    doord_alone -o h -- /dev/null
    ends 126
    says_like 'doord: /dev/null: '
    doord_alone -o h -- "$work"
    ends 126
    says_like 'doord: '
    doord_alone -o h -- sh -c 'exit 125'
    ends 125
    says
}

# Whoever starts doord may ignore the ends of children.
case_children_ignored() {
    fresh
    (
        cd "$work/d" || exit 1
        PATH=$bin:$out:$PATH
        exec $most sh -c 'trap "" CHLD; exec "$@"' sh "$doord" -o h -- sh -c 'serve w & pid=$!; doorwait w; ask w "echo x"; kill $pid; exit 7'
    ) >"$work/out" 2>"$work/err" </dev/null
    status=$?
    ended=
    said=
    ends 7
    gives 'echo x: x'
    legal "$work/d/h"
}

case_orphans() {
    run 'for i in 1 2 3 4 5; do (sleep 0.05 & sleep 0.02 &); done; sleep 0.5
        for file in /proc/[0-9]*/status; do grep -q "^PPid:.$PPID$" "$file" 2>/dev/null && grep "^State:" "$file"; done | grep -c Z'
    ended=yes
    gives 0
    run '(trap "" HUP; sleep 0.7; touch late) & exit 3'
    ends 3
    [ -e "$work/d/late" ] || wrong "what COMMAND left behind" "doord ends after it" "before"
}

# what COMMAND leaves behind: a server that waits, one that does not listen to SIGTERM, and one in a session of its own
case_left_behind() {
    run 'trap - EXIT; serve w & doorwait w; ask w "echo x"; exit 5'
    ends 5
    gives 'echo x: x'
    says_like 'doord: sh has ended: SIGTERM to what it left'
    run 'trap - EXIT; (trap "" TERM; exec serve w) & doorwait w; setsid sleep 1000 & ask w "echo x"'
    gives 'echo x: x'
    says_like 'doord: (sh has ended: SIGTERM|SIGKILL) to what' 2
}

case_stay() {
    run 'trap - EXIT; serve w & doorwait w; (sleep 1.6; ask w "echo later" "quit 0" >later) & ask w "echo x"; exit 4' --stay
    ends 4
    gives 'echo x: x'
    [ "$(head -n 1 "$work/d/later")" = 'echo later: later' ] || wrong "what was left" 'echo later: later' "$(cat "$work/d/later")"
}

case_no_history() {
    for file in /dev/full . missing/h; do
        doord_alone -o $file -- true
        ends 125
        says_like "doord: $file: the history cannot be written: "
    done
    ls -ld /dev/full >"$work/full"
    doord_alone -- true
    legal "$work/d/doord.history"
    touch "$work/old"
    chmod 644 "$work/old"
    (umask 0; doord_alone -o "$work/old" -- true; legal "$work/old"; [ -z "$bad" ] || touch "$work/worse")
    [ ! -e "$work/worse" ] || bad=yes
    rm -f "$work/old" "$work/worse"
    settled
}

case_history_of_another() {
    run 'doord -o "$HISTORY" -- true; echo $?; doord -o other -- true; echo $?; up serve w; doorwait w; ask w "echo x"'
    gives 125 0 'echo x: x'
    says_like "doord: $work/history: another doord writes it"
}

# until LINE: the output of what was started has the line
until_line() {
    looks=0
    until grep -q -e "$1" "$work/out"; do
        looks=$((looks + 1))
        [ $looks -lt 600 ] || { wrong "output" "$1" "$(cat "$work/out")"; return; }
        sleep 0.05
    done
}

# a write that fails comes in the middle of a run
case_history_ends_early() {
    blocks=6000
    start 'ulimit -f unlimited; up serve w; doorwait w; ask -n 1000 w "echo $(printf %03900d 0)"; echo "ask: $?"; wait $serving; echo "serve: $?"'
    blocks=
    wait "$running"
    status=$?
    ends 125
    until_line '^serve: '
    swept
    gives 'ask: 125' 'serve: 125'
    grep -q '^doord: .*history' "$work/err" || wrong "error stream" "doord: .. history .." "$(cat "$work/err")"
    says_like 'libdoor: doord is gone|doord: .*history' 9
    [ -z "$(ls -A "$work/t")" ] || wrong "the socket's folder" "nothing of it is left" "$(ls -A "$work/t")"
}

# The disk is full, or whoever read the history has gone: the programs are told that doord is gone, and what was written is legal.
case_history_is_cut() {
    cat >"$work/calls" <<'END'
serve w & pid=$!
doorwait w
ask -n 1000 w "echo $(printf %0900d 0)"
echo "ask: $?"
wait $pid
echo "serve: $?"
END
    fresh
    mkfifo "$work/d/fifo"
    head -c 150000 "$work/d/fifo" >"$work/d/copy" &
    doord_here -o fifo -- sh "$work/calls"
    ends 125
    wait $!
    until_line '^serve: '
    gives 'ask: 125' 'serve: 125'
    grep -q '^doord: fifo: the history cannot be written: Broken pipe$' "$work/err" || wrong "error stream" "doord: fifo: .." "$(cat "$work/err")"
    says_like 'libdoor: doord is gone|doord: fifo: the history cannot be written: ' 9
    sed '$d' "$work/d/copy" >"$work/most"
    "$DOORLAB" history "$work/most" >"$work/verdict" 2>&1 || wrong "the history up to then" "legal N" "$(cat "$work/verdict")"
    fresh
    mkdir "$work/d/disk"
    unshare -m sh -c 'mount -t tmpfs -o size=128k none "$1"' sh "$work/d/disk" 2>/dev/null || return
    doord=$doord calls=$work/calls PATH=$bin:$out:$PATH TMPDIR=$work/t unshare -m sh -c 'mount -t tmpfs -o size=128k none "$1" && cd "$1/.." || exit 1
        "$doord" -o disk/h -- sh "$calls"; echo "doord: $?"; cp disk/h h' sh "$work/d/disk" >"$work/out" 2>"$work/err" </dev/null
    until_line '^serve: '
    gives_sorted 'ask: 125' 'doord: 125' 'serve: 125'
    grep -q '^doord: disk/h: the history cannot be written: No space left on device$' "$work/err" || wrong "error stream" "doord: disk/h: .." "$(cat "$work/err")"
    sed '$d' "$work/d/h" >"$work/most"
    "$DOORLAB" history "$work/most" >"$work/verdict" 2>&1 || wrong "the history up to then" "legal N" "$(cat "$work/verdict")"
    [ -z "$(ls -A "$work/t")" ] || wrong "the socket's folder" "nothing of it is left" "$(ls -A "$work/t")"
}

case_wrong_options() {
    for words in '' '-o' '-o h' '-x -- true' '-b -- true' '-b serve -- true' '-b serve=1 -- true' '-b serve=1,2 -- true' '-b serve=1,2,3,4 -- true' \
        '-b =1,2,3 -- true' '-b serve=a,b,c -- true' '-b serve=1,2,-1 -- true' '-b serve=1,2,3x -- true' '-b serve=99999999999999999999,0,0 -- true' \
        '-b serve=0,1,2 -- true' '-b ./serve=1,2,3 -- true' '-l 0 -- true' '-l 257 -- true' '-l x -- true' '-l -- true' '--nothing -- true' '-S' '-oh -- true'; do
        # shellcheck disable=SC2086 # words are to be several
        doord_alone $words
        ends 125
        said=yes
        grep -q '^usage: doord ' "$work/err" || wrong "doord $words" "a line that begins with usage: doord" "$(cat "$work/err")"
        [ ! -s "$work/out" ] || wrong "doord $words" "no output" "$(cat "$work/out")"
    done
    for words in '-b serve=60,5,0 -- true' '-b serve=10,10,10 -- true' '-b serve=1,1,64 -- true' '-b a=30,0,0 -b b=30,10,0 -- true'; do
        # shellcheck disable=SC2086 # words are to be several
        doord_alone $words
        ends 125
        says_like 'doord: -b .*64'
    done
}

case_help() {
    doord_alone --help
    grep -q '^usage: doord ' "$work/out" || wrong "--help" "usage: doord .." "$(cat "$work/out")"
    for option in -b -l -o -S --eagain --no-preload --stay -h --help --version; do
        grep -q -e " $option" "$work/out" || wrong "--help" "$option" "$(cat "$work/out")"
    done
    settled
    cp "$work/out" "$work/help"
    doord_alone -h
    cmp -s "$work/help" "$work/out" || wrong "-h" "what --help says" "$(cat "$work/out")"
    settled
    doord_alone --version
    grep -q '^doord [0-9]' "$work/out" && [ "$(wc -l <"$work/out")" -eq 1 ] || wrong "--version" "doord N" "$(cat "$work/out")"
    [ -z "$(ls -A "$work/d")" ] || wrong "--version" "no files" "$(ls -A "$work/d")"
}

case_socket() {
    run 'echo "$DOORD_SOCKET"; [ -S "$DOORD_SOCKET" ] && ls -l "$DOORD_SOCKET" | cut -c 1-10; up serve w; doorwait w; ask w "echo x"' -S "$work/socket"
    gives "$work/socket" 'srw-------' 'echo x: x'
    [ ! -e "$work/socket" ] || wrong "-S" "the socket is gone" "$(ls -l "$work/socket")"
    run 'ls -ld "$(dirname "$DOORD_SOCKET")" | cut -c 1-10'
    gives 'drwx------'
    echo kept >"$work/taken"
    doord_alone -o h -S "$work/taken" -- true
    ends 125
    says_like 'doord: .*taken'
    [ "$(cat "$work/taken")" = kept ] || wrong "-S of a file that is there" "it is as it was" "$(ls -l "$work/taken")"
    doord_alone -o h -S "/$(printf '%0200d' 0)" -- true
    ends 125
    says_like 'doord: '
}

case_folders() {
    doord_in() {
        fresh
        (
            cd "$work/d" || exit 1
            TMPDIR=$1
            PATH=$bin:$out:$PATH
            export TMPDIR PATH
            exec $most "$doord" -o h -- sh -c 'serve w & pid=$!; doorwait w; ask w "echo x"; kill $pid'
        ) >"$work/out" 2>"$work/err" </dev/null
        status=$?
        ended=
        said=
    }
    doord_in "$work/missing"
    ends 125
    says_like 'doord: .*missing'
    deep=$work/$(printf '%0150d' 0)
    mkdir -p "$deep"
    doord_in "$deep"
    gives 'echo x: x'
    [ -z "$(ls -A "$deep")" ] || wrong "the socket's folder" "nothing of it is left" "$(ls -A "$deep")"
}

case_programs_without_doors() {
    run 'printf "b\na\n" >f; sort f | cat - f; dd if=/dev/zero bs=1000 count=5 2>g | wc -c; (cd / && ls >g) 2>/dev/null; seq 1000 | tail -n 1; find . -name f'
    gives a b b a 5000 1000 ./f
    [ $events -le 2 ] || wrong "events" "2 at most" "$events"
}

case_without_doord() {
    alone server sq
    ends 1
    says 'libdoor: no doord: run the program under doord(1)' 'door_create: Operation not supported'
    alone sh -c 'echo text >sq; client sq 9'
    ends 1
    says_like 'door_call: (Bad file descriptor|Operation not supported)|libdoor: no doord: run the program under doord\(1\)' 2
    alone sh -c 'DOORD_SOCKET=$PWD/missing DOORD_TABLE=$PWD/gone server sq'
    ends 1
    says 'libdoor: doord has ended, or is out of reach for this user' 'door_create: Operation not supported'
    alone sh -c "LD_PRELOAD=$out/libdoor.so sort /dev/null"
    run 'up serve w; doorwait w; env -u DOORD_SOCKET -u DOORD_TABLE ask w "echo x"; ask w "echo y"'
    sed 's/ENOTSUP$/EBADF/' "$work/out" >"$work/either" && mv "$work/either" "$work/out"
    gives 'echo x: EBADF' 'echo y: y'
    may_say 'libdoor: no doord: run the program under doord\(1\)'
}

case_changed_history() {
    run 'up server sq; doorwait sq; client sq 9'
    cp "$work/history" "$work/whole"
    grep -n '^[0-9]' "$work/whole" | cut -d : -f 1 >"$work/numbers"
    while read -r line; do
        sed "${line}d" "$work/whole" >"$work/changed"
        "$DOORLAB" history "$work/changed" >"$work/verdict" 2>&1 && wrong "without line $line" "refused" "$(cat "$work/verdict")"
        sed "${line}s/.\$/&x/" "$work/whole" >"$work/changed"
        "$DOORLAB" history "$work/changed" >"$work/verdict" 2>&1 && wrong "a byte more in line $line" "refused" "$(cat "$work/verdict")"
    done <"$work/numbers"
    sed 's/ collect = ok "Q/ collect = ok "R/' "$work/whole" >"$work/changed"
    "$DOORLAB" history "$work/changed" >"$work/verdict" 2>&1
    judged=$?
    [ $judged -eq 9 ] || wrong "82 in place of 81" "status 9" "status $judged, $(cat "$work/verdict")"
}

case_command_is_as_without() {
    cat >"$work/look" <<'END'
grep -E '^Sig(Blk|Ign|Cgt)' /proc/self/status
ls /proc/self/fd
ulimit -n; ulimit -f; umask; pwd | sed 's/.*\///'
env | grep -Ev '^(DOORD_|LD_|_=|HISTORY|TMPDIR|PATH|PWD|OLDPWD|SHLVL)' | sort
END
    run "sh $work/look 3</dev/null"
    cp "$work/out" "$work/inside"
    alone sh -c "trap true EXIT; sh $work/look 3</dev/null"
    cmp -s "$work/inside" "$work/out" || wrong "what a command finds" "$(cat "$work/out")" "$(cat "$work/inside")"
    settled
    (
        trap '' USR1 PIPE
        start 'grep -E "^SigIgn" /proc/self/status'
        finish
    )
    cp "$work/out" "$work/inside"
    (
        trap '' USR1 PIPE
        alone grep -E '^SigIgn' /proc/self/status
    )
    cmp -s "$work/inside" "$work/out" || wrong "signals that are ignored" "$(cat "$work/out")" "$(cat "$work/inside")"
}

case_library_path() {
    LD_LIBRARY_PATH=/one:/two
    export LD_LIBRARY_PATH
    run 'echo "$LD_LIBRARY_PATH" | sed "s/^[^:]*://"'
    gives /one:/two
    unset LD_LIBRARY_PATH
    run 'case $LD_LIBRARY_PATH in *:*) echo "$LD_LIBRARY_PATH" ;; /*) echo one ;; esac; case $LD_PRELOAD in */libdoor.so.1) echo preload ;; esac'
    gives one preload
    run 'echo "<$LD_PRELOAD>"; up server sq; doorwait sq; client sq 9' --no-preload
    gives '<>' 'result: 81'
}

# descriptors 0, 1 and 2 are closed: nothing of doord's stands there
case_closed_streams() {
    for streams in '<&-' '2>&-' '<&- 2>&-' '>&- 2>&-' '<&- >&- 2>&-'; do
        fresh
        cat >"$work/script" <<'END'
serve w & pid=$!
doorwait w
ask -t 10 w "echo x" >f
ask w "echo y" >g
ask w "echo z" <&- >i 2>&-
kill $pid
END
        (
            cd "$work/d" || exit 1
            TMPDIR=$work/t PATH=$bin:$out:$PATH
            export TMPDIR PATH
            eval "exec $most \"\$doord\" -o \"\$work/history\" -- sh \"\$work/script\" $streams"
        ) >"$work/out" 2>"$work/err" </dev/null
        status=$?
        ended=
        said=
        may_say 'ask.*-b ask='
        legal "$work/history"
        [ "$(cat "$work/d/g" "$work/d/i")" = 'echo y: y
echo z: z' ] || wrong "$streams" 'echo y: y, echo z: z' "$(cat "$work/d/g" "$work/d/i")"
    done
}

case_doord_killed() {
    start 'up serve w; doorwait w; ask w "hold go x" & asks=$!; seen "enter c1"; echo ready; wait $asks; echo "ask: $?"; wait $serving; echo "serve: $?"'
    until_line ready
    kill -9 "$(cat "$work/pid")"
    wait "$running" 2>/dev/null
    until_line '^serve: '
    swept
    gives ready 'ask: 125' 'serve: 125'
    says_like 'libdoor: doord is gone' 9
    status=
}

# What a program was told stands in the history, whenever doord is killed.
case_doord_killed_at_any_moment() {
    for pause in 0.1 0.15 0.2 0.25 0.3; do
        start 'up serve w; doorwait w; counts one & counts two & held two; echo ready; wait'
        until_line ready
        sleep $pause
        kill -9 "$(cat "$work/pid")"
        wait "$running" 2>/dev/null
        sleep 0.1
        swept
        sed '$d' "$work/history" >"$work/most"
        [ -n "$(tail -c 1 "$work/history")" ] || cp "$work/history" "$work/most"
        "$DOORLAB" history "$work/most" >"$work/verdict" 2>&1 || wrong "the history up to then" "legal N" "$(cat "$work/verdict")"
        told=$(($(od -An -t d8 -N 8 "$work/d/one") + $(od -An -t d8 -N 8 "$work/d/two")))
        written=$(grep -c ' collect = ok ' "$work/most")
        [ "$told" -le "$written" ] && [ "$told" -gt 0 ] || wrong "answers in the history" "$told at least" "$written"
        status=
    done
}

case_doord_terminated() {
    start 'up serve w; doorwait w; ask w "hold go x" & seen "enter c1"; echo ready; wait'
    until_line ready
    kill -TERM "$(cat "$work/pid")"
    finish
    ends 143
    said=yes
}

# What would end doord by itself it hands on, as it does SIGTERM: its folder goes, and the history is whole.
case_doord_gets_other_signals() {
    for signal in USR1 ALRM XCPU RTMIN; do
        start 'up serve w; doorwait w; ask w "hold go x" & seen "enter c1"; echo ready; wait'
        until_line ready
        kill -s $signal "$(cat "$work/pid")"
        finish
        [ $status -gt 128 ] || wrong "status after SIG$signal" "128 and its number" "$status"
        ended=yes
        said=yes
    done
    start 'trap "exit 6" USR2; echo ready; while :; do :; done'
    until_line ready
    kill -s USR2 "$(cat "$work/pid")"
    finish
    ends 6
}

# As from a terminal: all of them are sent it, and what the shell keeps it from is ended then.
case_interrupted() {
    for signal in INT QUIT; do
        fresh
        : >"$work/out"
        cat >"$work/script" <<'END'
serve w & doorwait w
ask w "hold go x" & ask w "echo ready"
wait
END
        (
            cd "$work/d" || exit 1
            HISTORY=$work/history TMPDIR=$work/t PATH=$bin:$out:$PATH
            export HISTORY TMPDIR PATH
            exec setsid env LD_LIBRARY_PATH="$out" sigs "$signal" $most sh -c 'echo $$ >"$0"; exec "$@"' "$work/pid" "$doord" -o "$work/history" -- sh "$work/script"
        ) >"$work/out" 2>"$work/err" </dev/null &
        running=$!
        ended=
        said=
        until_line ready
        kill -s $signal -- "-$running"
        finish
        [ $status -eq 130 ] || [ $status -eq 131 ] || wrong "status" "130 or 131" "$status"
        ended=yes
        said=yes
    done
}

case_doord_in_doord() {
    run 'up serve w; doorwait w; doord -o inner -- sh -c "serve w2 & pid=\$!; doorwait w2; ask w2 \"echo inner\"; kill \$pid"; echo "status $?"; ask w "echo outer"
        tail -n 1 inner | cut -c 1-12'
    gives 'echo inner: inner' 'status 0' 'echo outer: outer' 'end complete'
    legal "$work/d/inner"
}

case_two_doords() {
    run 'doord -o other -- sh -c "serve x & pid=\$!; doorwait x; touch up; until [ -e over ]; do sleep 0.02; done; ask x \"echo theirs\"; kill \$pid" & other=$!
        held up; up serve w; doorwait w; ask w "echo ours"; ask x "echo nobody"; touch over; wait $other'
    gives 'echo ours: ours' 'echo nobody: EBADF' 'echo theirs: theirs'
}

case_odd_names() {
    run 'for name in Ask-It.2 init 9lives a_name_of_more_than_sixty_four_bytes_which_is_cut_to_what_a_name_may_be_ok \
        "with blank" "$(printf "h\303\244\n")" p2 t3 server_k \
        "#" "*" "%s%n" "=" "$(printf "a\nb")"; do cp "$(command -v ask)" "$name"; done
        up serve w; doorwait w; for name in *[!w]; do [ ! -x "$name" ] || "./$name" w "echo x"; done | uniq -c | sed "s/^ *//"'
    gives '14 echo x: x'
}

case_fifo_as_history() {
    fresh
    mkfifo "$work/d/fifo"
    cat "$work/d/fifo" >"$work/d/copy" &
    doord_here -o fifo -- sh -c 'serve w & pid=$!; doorwait w; ask w "echo x"; kill $pid'
    wait $!
    chmod 600 "$work/d/copy"
    legal "$work/d/copy"
    gives 'echo x: x'
}

# a program that closes all that it does not know may go on, and nothing of doord's is left open when clients have come and gone
case_descriptors_of_doord() {
    run 'count() { ls /proc/$PPID/fd | wc -l; }
        up serve w; doorwait w; files 4 5; ask w "detach files"; sleep 0.5; before=$(count); ls -l /proc/$PPID/fd >listed
        i=0; while [ $i -lt 15 ]; do for j in 1 2 3 4; do ask -t 1 w "echo x" & asks="$asks $!"; done; wait $asks; asks=; i=$((i + 1)); done >asked
        attach; pass; closes; files 4 20; threads 50; ask w "detach pass" "detach files"; sort -u asked
        looks=0; until [ "$(count)" -le "$before" ] || [ $looks -eq 100 ]; do looks=$((looks + 1)); sleep 0.05; done
        if [ $looks -lt 100 ]; then echo same; else cat listed; ls -l /proc/$PPID/fd; fi' -b 'files=5,1,0' -b 'files=5,1,0' -b 'files=5,1,0'
    gives 'done' 'detach files: ok' 'done' 'done' 'done' 'done' 'done' 'detach pass: ok' 'detach files: ok' '1 ok' same
    says_like 'libdoor: .*16 descriptors'
}

# What is written into the descriptor of a door concerns nobody: doord rests.
case_scribbles() {
    run 'up serve w; doorwait w; scribble go & held scribbled; read -r before </proc/$PPID/stat; sleep 1; read -r after </proc/$PPID/stat; touch go; wait $!
        echo "$before" | awk "{ print \$14 + \$15 }" >one; echo "$after" | awk "{ print \$14 + \$15 }" >two
        [ $(($(cat two) - $(cat one))) -lt 20 ] && echo rests; ask w "echo x"'
    gives rests 'echo x: x'
}
