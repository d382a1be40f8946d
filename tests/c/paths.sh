# Paths: attached files, and doorwait.
# Read by tests/c.sh, which has the words that the cases use.

case_attach() {
    run attach
    gives 'done'
}

case_opens() {
    run opens
    gives 'done'
}

# open(2) under its other names
case_opens_of_other_names() {
    for option in '-O2 -U_FORTIFY_SOURCE -D_FORTIFY_SOURCE=2' -D_FILE_OFFSET_BITS=64 '-O2 -U_FORTIFY_SOURCE -D_FORTIFY_SOURCE=2 -D_FILE_OFFSET_BITS=64'; do
        # shellcheck disable=SC2086 # options are to be several
        $cc -std=gnu11 $option -Ic/include -o "$bin/opens_so" c/tests/opens.c -L"$out" -ldoor -pthread >"$work/made" 2>&1 ||
            wrong "$option" "a program" "$(cat "$work/made")"
        run opens_so
        gives 'done'
    done
}

case_detach_by_another() {
    run 'up serve w other; doorwait other; ask -k go w "echo x" & seen "return .x."; ask other "detach w" "echo y"; ask w "echo z"; touch go'
    gives_sorted 'echo x: x' 'detach w: ok' 'echo y: y' 'echo z: EBADF'
}

case_places() {
    run places
    gives 'done'
}

case_another_root() {
    [ "$(id -u)" -eq 0 ] || return 0
    run 'up serve w; doorwait w; mkdir root; places chroot & held root/up; ask root/door x; touch root/end; wait $!; ask w "echo y"; places late'
    gives 'x: door' 'done' 'echo y: y' 'done'
    says 'libdoor: doord has ended, or is out of reach for this user'
}

case_busy() {
    run busy
    gives 'done'
}

# the system's own tools meet it, too
case_tools_meet_busy_files() {
    run 'up serve w; doorwait w; rm -f w; mv w x; echo new >new; mv new w; mkdir folder; mv w folder; ls; ask w "echo x" "detach w"; mv w x; rm x; ls'
    gives folder new w 'echo x: x' 'detach w: ok' folder new
    says_like '(rm|mv): .*[Bb]usy' 4
}

# a new server comes where one was: it detaches the door that is dead, or takes the file away with it
case_servers_one_after_the_other() {
    run 'echo text >w; up serve other; serve w & pid=$!; doorwait other; doorwait w; ask w "echo a"; ask -k go w "echo b" & asks=$!; seen "return .b."; kill -9 $pid; wait $pid 2>/dev/null; seen "kill serve"
        ask w "echo d"; serve w; echo "status $?"; ask other "detach w" "detach w"; cat w; up serve w; doorwait w; ask w "echo e"; touch go; wait $asks'
    gives_sorted 'echo a: a' 'echo b: b' 'echo d: EBADF' 'fattach: EBUSY' 'status 3' 'detach w: ok' 'detach w: EINVAL' text 'echo e: e'
    run 'serve w & pid=$!; doorwait w; kill $pid; wait $pid 2>/dev/null; seen "kill serve"; ask w "echo d"; rm w; ask w; up serve w; doorwait w; ask w "echo e"'
    gives 'echo d: EBADF' 'w: ENOENT' 'echo e: e'
    run 'serve w & pid=$!; doorwait w; ln w hard; kill $pid; wait $pid 2>/dev/null; seen "kill serve"; echo new >new; mv new w; cat w; up serve w; doorwait w
        ask hard "echo d"; ask w "echo e" "detach hard" "detach hard"; cat hard; ask w "detach w"; cat w'
    gives new 'echo d: EBADF' 'echo e: e' 'detach hard: ok' 'detach hard: EINVAL' 'detach w: ok' new
}

# by seeds
case_shuffled_attachments() {
    for seed in 3 5 6; do
        run "attachments $seed 150"
        gives 'done'
    done
}

case_doorwait() {
    run 'doorwait w & waits=$!; doorwait ./w & again=$!; doorwait link & link=$!; sleep 0.2; up serve w; wait $waits; echo $?
        wait $again; echo $?; doorwait "$PWD/w"; echo $?
        ln -s w link; wait $link; echo $?; doorwait -t 5 link; echo $?'
    gives 0 0 0 0 0
    run 'doorwait never & waits=$!; sleep 0.2; kill $waits; wait $waits 2>/dev/null; echo $?
        doorwait; echo $?; doorwait ""; echo $?; doorwait -t x w; echo $?; doorwait -t 0.2 never; echo $?'
    gives 143 2 2 2 1
    said=yes
    grep -q 'usage: doorwait' "$work/err" || wrong "doorwait without a path" "usage: doorwait" "$(cat "$work/err")"
    # a door whose server has ended, or that was revoked, is none
    run 'up serve w; doorwait w; kill -9 $!; wait $! 2>/dev/null; seen "kill serve"; doorwait -t 0.3 w; echo $?; rm w; doorwait w & waits=$!; up serve w - x; wait $waits; echo $?
        ask w "revoke 1"; doorwait -t 0.3 w; echo $?; ask x "echo y"'
    gives 1 0 'revoke 1: ok' 1 'echo y: y'
    says_like 'doorwait: w: ' 2
}
