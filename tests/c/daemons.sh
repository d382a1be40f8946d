# A daemon as one meets them, c/examples/nscd, and clients that do without it where they have to.
# Read by tests/c.sh, which has the words that the cases use.

# What the scripts of nscd begin with: a folder `etc` of its files, and words over it. `blocks FILE` makes look-ups in that file wait;
# `unblocks FILE PID` ends that, until the process has ended. `later FILE KEY LINE` waits until the answer is that line.
nscd_prelude='
mkdir etc
printf "%s\n" "root:x:0:0:Super-User:/root:/sbin/sh" "ada:x:101:10:Ada:/home/ada:/bin/sh" "grace:x:102:10:Grace:/home/grace:/bin/ksh" >etc/passwd
printf "%s\n" "root::0:" "staff::10:ada,grace" >etc/group
get() { nsgetent -v -d etc "$@"; }
status() { nscd -d etc "$@"; echo "nscd $*: $?"; }
blocks() { mkfifo "$1.fifo"; cp "etc/$1" "$1"; ln "$1.fifo" etc/fifo; mv etc/fifo "etc/$1"; }
unblocks() { mv "$1" "etc/$1"; while kill -0 "$2" 2>/dev/null; do : 9<>"$1.fifo"; sleep 0.02; done; wait "$2"; }
later() { looks=0; until [ "$(get "$1" "$2")" = "$3" ]; do looks=$((looks + 1)); [ $looks -lt 500 ] || late "$3"; sleep 0.02; done; }
log() { sed "s/^[^ ]* [^ ]* //; s/process [0-9]*/process N/; s|at /.*/etc/|at etc/|" etc/nscd.log; }
'

nscd_run() {
    script=$1
    shift
    run "$nscd_prelude$script" "$@"
}

case_nscd() {
    nscd_run 'status; get passwd ada 0 nosuch 77; get passwd ada; get group staff 10 0; status -g | sed "s/^nscd [0-9]*:/nscd N:/; s/[1-4] threads/N threads/"
        status; status -i passwd; status -i all; status -i hosts; status -K; get passwd ada; status -K; status -g; log; cat etc/nscd.pid'
    gives 'nscd : 0' 'ada:x:101:10:Ada:/home/ada:/bin/sh (nscd)' 'root:x:0:0:Super-User:/root:/sbin/sh (nscd)' 'nosuch: no such entry (nscd)' \
        '77: no such entry (nscd)' 'ada:x:101:10:Ada:/home/ada:/bin/sh (nscd)' 'staff::10:ada,grace (nscd)' 'staff::10:ada,grace (nscd)' 'root::0: (nscd)' \
        'nscd N: 9 calls, 1 at once at most, N threads' 'passwd: 4 entries, 1 hits, 0 of them of absent names, 4 misses, 0 expired, 0 evicted' \
        'group: 3 entries, 0 hits, 0 of them of absent names, 3 misses, 0 expired, 0 evicted' 'nscd -g: 0' \
        'nscd : 1' 'nscd -i passwd: 0' 'nscd -i all: 0' 'nscd -i hosts: 1' 'nscd -K: 0' 'ada:x:101:10:Ada:/home/ada:/bin/sh (file)' 'nscd -K: 0' 'nscd -g: 1' \
        'process N answers at etc/name_service_door' 'passwd invalidated by process N' 'passwd invalidated by process N' \
        'group invalidated by process N' 'shutdown by process N' 'process N ends'
    sed 's/process [0-9]*/process N/; s|of /.*/etc|of etc|' "$work/err" >"$work/said" && mv "$work/said" "$work/err"
    says 'nscd: process N is nscd of etc already' 'nscd: no such database' 'nscd: no nscd answers: Bad file descriptor'
}

# in the foreground, ended by signals
case_nscd_signals() {
    for signal in TERM INT; do
        nscd_run "nscd -f -d etc & pid=\$!; doorwait etc/name_service_door; get passwd ada; kill -$signal \$pid; wait \$pid; echo \$?; get passwd ada; log"
        gives 'ada:x:101:10:Ada:/home/ada:/bin/sh (nscd)' 0 'ada:x:101:10:Ada:/home/ada:/bin/sh (file)' \
            'process N answers at etc/name_service_door' 'process N ends'
    done
}

# where it cannot begin it says why, also the one that would be a daemon
case_nscd_cannot_begin() {
    nscd_run 'nscd -d missing; echo $?; nscd -t 0; echo $?; nscd -d etc more; echo $?; mkdir etc/nscd.log; status; nscd -f -d etc; echo $?; rmdir etc/nscd.log
        mkdir etc/name_service_door; status; get passwd ada'
    gives 1 2 2 'nscd : 1' 1 'nscd : 1' 'ada:x:101:10:Ada:/home/ada:/bin/sh (file)'
    said=yes
    grep -v '^ *\(usage: \)\{0,1\}nscd \[' "$work/err" >"$work/said" && mv "$work/said" "$work/err"
    says 'nscd: missing: No such file or directory' 'nscd: nscd.log: Is a directory' 'nscd: nscd.log: Is a directory' \
        'nscd: name_service_door: Is a directory'
}

case_nscd_reload() {
    nscd_run 'status; get passwd ada; get group staff; echo "ada:x:202:10::/:" >etc/passwd; get passwd ada; mv etc/nscd.log old; kill -HUP $(cat etc/nscd.pid)
        later passwd ada "ada:x:202:10::/: (nscd)"; held etc/nscd.log; log; status -K; tail -n 1 etc/nscd.log | grep -c ends'
    gives 'nscd : 0' 'ada:x:101:10:Ada:/home/ada:/bin/sh (nscd)' 'staff::10:ada,grace (nscd)' 'ada:x:101:10:Ada:/home/ada:/bin/sh (nscd)' reloaded \
        'nscd -K: 0' 1
}

# entries, and that there are none, each for its time
case_nscd_expires() {
    nscd_run 'status -p 1 -n 600; get passwd nosuch; get passwd ada; echo "nosuch:x:1:1::/:" >etc/passwd; later passwd ada "ada: no such entry (nscd)"; get passwd nosuch
        status -i passwd; get passwd nosuch; status -g | grep -o "passwd:.*, 1 expired"; status -K'
    sed 's/, [0-9]* hits, [0-9]* of/, N hits, N of/; s/[0-9]* misses/N misses/' "$work/out" >"$work/either" && mv "$work/either" "$work/out"
    gives 'nscd -p 1 -n 600: 0' 'nosuch: no such entry (nscd)' 'ada:x:101:10:Ada:/home/ada:/bin/sh (nscd)' 'nosuch: no such entry (nscd)' \
        'nscd -i passwd: 0' 'nosuch:x:1:1::/: (nscd)' 'passwd: 1 entries, N hits, N of them of absent names, N misses, 1 expired' 'nscd -K: 0'
}

# Many at once, while it is told to reload again and again.
case_nscd_many_clients() {
    nscd_run 'status; for i in 1 2 3 4 5 6; do nsgetent -n 40 -d etc passwd ada 102 nosuch & clients="$clients $!"; done
        for i in 1 2 3 4 5; do kill -HUP $(cat etc/nscd.pid); nscd -d etc -i group; nsgetent -d etc group staff; done; for pid in $clients; do wait $pid; echo $?; done
        status -g | grep -o "[0-9]* calls"; status -K' -b 'nscd=2,8,0'
    sed 's/^[0-9]* calls$/& /; s/^73[01] calls $/730 calls/' "$work/out" >"$work/either" && mv "$work/either" "$work/out"
    ada='ada:x:101:10:Ada:/home/ada:/bin/sh' grace='grace:x:102:10:Grace:/home/grace:/bin/ksh' staff='staff::10:ada,grace'
    gives_sorted 'nscd : 0' $ada $ada $ada $ada $ada $ada $grace $grace $grace $grace $grace $grace $staff $staff $staff $staff $staff 2 2 2 2 2 2 \
        '730 calls' 'nscd -K: 0'
}

# The pool grows while calls wait, up to its most, and a call more waits until a thread is free.
case_nscd_pool() {
    nscd_run 'status -t 4; blocks group; for i in 1 2 3; do get group "g$i" & clients="$clients $!"; done; seen "enter .* serve_call .*g[123]" 3
        get passwd ada; status -g | grep -o "4 at once at most, 4 threads"; get group g4 & fourth=$!; seen "enter .* serve_call .*g4"
        get passwd root & fifth=$!; seen "call 0 .*root"; unblocks group $fourth; wait $clients $fifth; status -g | grep -o "4 at once at most, 4 threads"; status -K' \
        -b 'nscd=2,8,0'
    gives_sorted 'nscd -t 4: 0' 'ada:x:101:10:Ada:/home/ada:/bin/sh (nscd)' 'root:x:0:0:Super-User:/root:/sbin/sh (nscd)' 'g1: no such entry (nscd)' \
        'g2: no such entry (nscd)' 'g3: no such entry (nscd)' 'g4: no such entry (nscd)' '4 at once at most, 4 threads' '4 at once at most, 4 threads' 'nscd -K: 0'
}

# The word for the end comes while calls are under way: they are answered first. The last one may be answered as the daemon ends.
case_nscd_ends_with_its_calls() {
    nscd_run 'status; blocks group; blocks passwd; get group g1 & first=$!; get passwd a1 & last=$!; seen "enter .* serve_call .*[ga]1" 2
        kill $(cat etc/nscd.pid); seen "revoke 0"; unblocks group $first; get group staff; unblocks passwd $last; nscd -d etc -K; log | tail -n 1'
    sed 's/^a1: no such entry (file)$/a1: no such entry (nscd)/' "$work/out" >"$work/either" && mv "$work/either" "$work/out"
    gives 'nscd : 0' 'g1: no such entry (nscd)' 'staff::10:ada,grace (file)' 'a1: no such entry (nscd)' 'process N ends'
}

# Killed while it answers, while it does nothing, and begun again: clients go on with the file, and with the next daemon.
case_nscd_killed() {
    nscd_run 'nscd -f -d etc & pid=$!; doorwait etc/name_service_door; get passwd ada; blocks passwd; get passwd grace & client=$!; seen "enter .* serve_call .*grace"
        mv passwd etc/passwd; kill -9 $pid; wait $pid 2>/dev/null; wait $client; get group staff; status; get group staff; kill -9 $(cat etc/nscd.pid)
        get group staff; nscd -d etc -g; status; get passwd grace; status -K'
    gives 'ada:x:101:10:Ada:/home/ada:/bin/sh (nscd)' 'grace:x:102:10:Grace:/home/grace:/bin/ksh (file)' 'staff::10:ada,grace (file)' 'nscd : 0' \
        'staff::10:ada,grace (nscd)' 'staff::10:ada,grace (file)' 'nscd : 0' 'grace:x:102:10:Grace:/home/grace:/bin/ksh (nscd)' 'nscd -K: 0'
    says 'nscd: no nscd answers: Bad file descriptor'
}

# Daemons come and go, by all ways, while clients that live longer ask on.
case_nscd_restarts_under_load() {
    nscd_run 'for i in 1 2 3; do nsgetent -n 400 -d etc passwd ada grace & clients="$clients $!"; done
        for end in KILL TERM KILL TERM; do nscd -d etc || echo "nscd: $?"; get passwd root; kill -$end $(cat etc/nscd.pid)
            nscd -d etc -K || echo "nscd -K: $?"; done; nscd -d etc; get passwd root; for pid in $clients; do wait $pid; echo $?; done; status -K' -b '*=1,2,0'
    ada='ada:x:101:10:Ada:/home/ada:/bin/sh' grace='grace:x:102:10:Grace:/home/grace:/bin/ksh' root='root:x:0:0:Super-User:/root:/sbin/sh (nscd)'
    gives_sorted "$root" "$root" "$root" "$root" "$root" $ada $ada $ada $grace $grace $grace 0 0 0 'nscd -K: 0'
}

# A daemon that is stopped lets its clients wait, and a signal with a handler does not make them lose the answer.
case_nscd_stopped() {
    nscd_run 'status; get passwd ada; kill -STOP $(cat etc/nscd.pid); get passwd grace & client=$!; seen "call 0 .*grace"; kill -CONT $(cat etc/nscd.pid); wait $client; status -K'
    gives 'nscd : 0' 'ada:x:101:10:Ada:/home/ada:/bin/sh (nscd)' 'grace:x:102:10:Grace:/home/grace:/bin/ksh (nscd)' 'nscd -K: 0'
}

# Somebody takes its path away: when the last client has gone the daemon is told, and ends.
case_nscd_unreferenced() {
    nscd_run 'nscd -f -d etc & pid=$!; doorwait etc/name_service_door; get passwd ada; up serve w; doorwait w; ask w "detach etc/name_service_door"; wait $pid; echo $?
        get passwd ada; log'
    gives 'ada:x:101:10:Ada:/home/ada:/bin/sh (nscd)' 'detach etc/name_service_door: ok' 0 'ada:x:101:10:Ada:/home/ada:/bin/sh (file)' \
        'process N answers at etc/name_service_door' 'unreferenced: nobody can reach the door any more' 'process N ends'
}

# Results larger than the client's buffer are mapped. What this kernel does not hand over the daemon cannot answer, and its client looks itself.
case_nscd_large_entries() {
    nscd_run 'members() { echo "$1::$2:$(seq -s , 1000 "$3")"; }; members large 20 1500 >>etc/group; members larger 21 2500 >>etc/group
        status; get group large | cksum; members large 20 1500 | sed "s/$/ (nscd)/" | cksum; get group larger | cksum; members larger 21 2500 | sed "s/$/ (file)/" | cksum
        get group 21 | tail -c 8; log | tail -n 1; status -K'
    sum1=$(sed -n 2p "$work/out")
    sum2=$(sed -n 4p "$work/out")
    gives 'nscd : 0' "$sum1" "$sum1" "$sum2" "$sum2" ' (file)' 'door_return of 7524 bytes: Argument list too long' 'nscd -K: 0'
}

# A client that is no client of its: what it sends is not read as if it were.
case_nscd_calls_of_others() {
    nscd_run 'status; ask etc/name_service_door "" x "echo 1234567890" "echo $(printf %072d 0)" | tr -cd "[:alnum:]:\\n "; get passwd ada; log | grep -c "none of ours"; status -K'
    gives 'nscd : 0' ': ' 'x: ' 'echo 1234567890: ' "echo $(printf %072d 0): ENOBUFS" 'ada:x:101:10:Ada:/home/ada:/bin/sh (nscd)' 3 'nscd -K: 0'
}

# What the README of an example shows: its commands, as at the top of a clone, and what they print, but for pids, counts of events and of threads.
readme_of() {
    fresh
    ln -s "$top/c" "$work/d/c"
    mkdir -p "$work/d/crates/doorlab/out"
    ln -s "$DOORLAB" "$work/d/crates/doorlab/out/doorlab"
    awk '/^```sh$/ { in_block = 1; next } /^```$/ { in_block = 0 } in_block' "c/examples/$1/README.md" >"$work/script"
    alike="s|/[^ ]*/etc|/etc|; s/legal [0-9]*/legal N/; s/[0-9]* threads/N threads/; s/\(nscd\|process\) [0-9][0-9]*/\1 N/g; s/uid [0-9]*/uid N/
s/^[0-9]* [0-9]*: /N N: /"
    awk '/^```/ { in_block = !in_block; next } !in_block && sub(/^    /, "")' "c/examples/$1/README.md" | sed "$alike" >"$work/shown"
    [ -s "$work/shown" ] || wrong "the page" "lines that are shown" "none"
    (
        cd "$work/d" || exit 1
        TMPDIR=$work/t
        export TMPDIR
        exec $most sh "$work/script"
    ) 2>&1 </dev/null | sed "$alike" >"$work/out"
    cmp -s "$work/shown" "$work/out" || wrong "the page" "$(cat "$work/shown")" "$(cat "$work/out")"
}

case_nscd_page() {
    readme_of nscd
}
