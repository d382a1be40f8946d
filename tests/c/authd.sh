# A daemon that passes descriptors back, c/examples/authd, and programs that live on what it opened.
# Read by tests/c.sh, which has the words that the cases use.

# What the scripts begin with: a folder `etc` of the daemon, whose keys are for a user that nobody is, and words over it. `later FILE TEXT`
# waits until a line of the file has the text; `log` is the daemon's, without days, pids and uids.
authd_prelude='
mkdir etc
printf "%s\n" "# a remark" "motd file all motd # another" "" "audit log all audit" "keys file 64001 keys" "gone file all no/where" >etc/authd.conf
echo welcome >etc/motd
echo secret >etc/keys
daemon() { authd etc && doorwait etc/authd_door; }
get() { authopen etc "$@"; }
later() { looks=0; until grep -q -e "$2" "$1"; do looks=$((looks + 1)); [ $looks -lt 1500 ] || late "$2"; sleep 0.02; done; }
end() { kill "${2--TERM}" "$(cat etc/authd.pid)"; later etc/authd.log "process .* ends"; }
log() { sed "s/^[^ ]* [^ ]* //; s/process [0-9]*/process N/; s/uid [0-9]*/uid N/; s|at /.*/etc/|at etc/|" etc/authd.log; }
audit() { sed "s/^[0-9]* $(id -u):/N me:/" etc/audit; }
'

authd_run() {
    script=$1
    shift
    run "$authd_prelude$script" "$@"
}

case_authd() {
    authd_run 'get motd; daemon; get motd; get motd tr a-z A-Z; get keys; get nosuch; get gone; get "$(printf %032d 0)"; echo hello | get audit; seq 1 2 | get audit
        get audit printf "no end"; end; get motd; audit; log | grep -v closed; log | grep -c "closed: audit, by"; cat etc/authd.pid'
    gives welcome WELCOME 'N me: hello' 'N me: 1' 'N me: 2' 'N me: no end' 'process N answers at etc/authd_door' 'granted: motd, process N, uid N' \
        'granted: motd, process N, uid N' 'denied: keys, process N, uid N' 'unknown: nosuch, process N, uid N' \
        'failed: gone, process N, uid N: No such file or directory' 'granted: audit, process N, uid N' 'granted: audit, process N, uid N' \
        'granted: audit, process N, uid N' 'process N ends' 3
    says 'authopen: motd: Connection refused' 'authopen: keys: Permission denied' 'authopen: nosuch: No such file or directory' \
        'authopen: gone: No such file or directory' 'authopen: 00000000000000000000000000000000: No such file or directory' \
        'authopen: motd: Connection refused'
}

# A process has a log open once, also behind an exec, until it closes it.
case_authd_busy() {
    authd_run 'daemon; get audit sh -c "echo 1; exec authopen etc audit echo 2"; get audit sh -c "echo 3; exec >&2; exec authopen etc audit echo 4"; end; audit'
    gives 'N me: 1' 'N me: 3' 'N me: 4'
    says 'authopen: audit: Device or resource busy'
}

# in the foreground, by the rules for a uid and for a name; both signals end it
case_authd_rules() {
    for signal in INT TERM; do
        authd_run "me=\$(id -u) name=\$(id -un); printf '%s\n' \"motd file 64001 keys\" \"motd file \$me motd\" \"mine file \$name motd\" >etc/authd.conf
            authd -d etc 2>said & doorwait etc/authd_door; get motd; get mine; get keys; kill -$signal \$!; wait \$!; echo \$?; sed 's/[0-9][0-9]*/N/g; s|at /.*/|at |' said"
        gives welcome welcome 0 'authd: process N answers at authd_door' 'authd: granted: motd, process N, uid N' \
            'authd: granted: mine, process N, uid N' 'authd: unknown: keys, process N, uid N' 'authd: process N ends'
        says 'authopen: keys: No such file or directory'
    done
}

# New rules hold from SIGHUP on; wrong ones do not. What was open stays so, and the log may be moved away.
case_authd_reload() {
    authd_run 'daemon; get audit sh -c "echo before; : >have; . ./rest" & client=$!; echo "until [ -e go ]; do sleep 0.02; done; echo after" >rest; held have
        mv etc/authd.log old; echo "keys file all keys" >etc/authd.conf; kill -HUP $(cat etc/authd.pid); held etc/authd.log; later etc/authd.log reloaded; get keys; get audit
        echo "motd file all" >etc/authd.conf; kill -HUP $(cat etc/authd.pid); later etc/authd.log "stay as they were"; get keys; : >go; wait $client; end; audit
        sed "s|/.*/etc|etc|" old | grep -c "granted: audit"; log | sed "s|/.*/etc|etc|"'
    gives secret secret 'N me: before' 'N me: after' 1 reloaded 'granted: keys, process N, uid N' 'unknown: audit, process N, uid N' \
        'etc/authd.conf, line 1: not NAME file|log WHO FILE' 'the rules stay as they were' 'granted: keys, process N, uid N' \
        'closed: audit, by process N' 'process N ends'
    says 'authopen: audit: No such file or directory'
}

# Where it cannot begin it says why, as long as somebody listens; later it stands in the log. At most one daemon has a folder.
case_authd_cannot_begin() {
    authd_run 'authd; echo $?; authd -x etc; echo $?; authd missing; echo $?; daemon; authd -d etc; echo $?; authd etc; echo $?; until [ $(grep -c "authd.pid:" etc/authd.log) -eq 2 ]; do sleep 0.02; done; get motd; end
        echo "motd file nosuchuser motd" >etc/authd.conf; authd etc; echo $?; rm etc/authd.conf; authd etc; echo $?; rm etc/authd.log; mkdir etc/authd.log; authd etc; echo $?' 2>&1
    sed 's|/[^ ]*/etc|etc|; s/authd: invalid option.*/authd: option/' "$work/err" | grep -v 'authd\.pid' >"$work/said" && mv "$work/said" "$work/err"
    gives 2 2 1 1 0 welcome 1 1 1
    says 'usage: authd [-d] FOLDER' 'authd: option' 'usage: authd [-d] FOLDER' 'authd: missing: No such file or directory' \
        'authd: etc/authd.conf, line 1: not NAME file|log WHO FILE' 'authd: etc/authd.conf: No such file or directory' 'authd: etc/authd.log: Is a directory'
}

# It keeps nothing that it was given: whoever waits for the end of its output does not wait for the daemon's.
case_authd_lets_go() {
    authd_run 'mkfifo line; { authd etc; echo "status $?"; } 7>line 3<etc/motd | cat & cat line; wait $!; doorwait etc/authd_door; get motd; end'
    gives 'status 0' welcome
}

# The word for the end while a log is open: what was written is taken, and whoever writes later is told by SIGPIPE.
case_authd_ends_with_logs_open() {
    authd_run 'echo "echo 1; echo 2; printf 3; : >have; until [ -e go ]; do sleep 0.02; done; echo 4; : >not" >rest; daemon; get audit sh rest & client=$!; held have; end; : >go
        wait $client; echo $?; ls not; audit; log | tail -n 2'
    sed 's/^ls: .*not.*/ls: not/' "$work/err" >"$work/said" && mv "$work/said" "$work/err"
    gives 141 'N me: 1' 'N me: 2' 'N me: 3' 'closed: audit, by process N' 'process N ends'
    says 'ls: not'
}

# A file that was opened stays so when the daemon is killed; a log does not. The next daemon takes path and lock over.
case_authd_killed() {
    authd_run 'echo ": >have; until [ -e go ]; do sleep 0.02; done; cat" >rest; daemon; get motd sh rest & reader=$!; held have; rm have
        echo "echo 1; : >have; until [ -e go ]; do sleep 0.02; done; echo 2" >rest2; get audit sh rest2 & writer=$!; held have; later etc/audit ": 1$"
        kill -9 $(cat etc/authd.pid); seen "of authd has ended"; get motd; : >go; wait $reader; wait $writer; echo $?; daemon; get motd; end; audit'
    gives welcome 141 welcome 'N me: 1'
    says 'authopen: motd: Connection refused'
}

# A client that is killed while it waits, and one that is with a log open: the daemon is left with nothing of theirs.
case_authd_clients_killed() {
    authd_run 'daemon; kill -STOP $(cat etc/authd.pid); authopen etc audit & client=$!; seen "call 0 .*audit"; kill -9 $client; wait $client 2>/dev/null; kill -CONT $(cat etc/authd.pid)
        later etc/authd.log "its client has gone"; authopen etc audit sh -c "echo 1; : >have; exec sleep 60" & client=$!; held have; kill -9 $client; wait $client 2>/dev/null
        until [ $(grep -c closed etc/authd.log) -eq 1 ]; do sleep 0.02; done; get motd; end; audit; log | grep -c granted'
    gives welcome 'N me: 1' 2
}

# Many at once: each gets what it asked for, and no line of a log is lost. (Not by cat(1), which may copy from file to file, over what others write.)
case_authd_many_clients() {
    authd_run 'daemon; for i in 1 2 3 4 5 6; do for j in 1 2 3 4 5; do get motd tr a-z A-Z || echo "motd $?"; seq 1 30 | get audit || echo "audit $?"; get keys; done & clients="$clients $!"; done 2>denied
        for i in 1 2 3 4 5; do kill -HUP $(cat etc/authd.pid); get motd tr a-z A-Z || echo "motd $?"; done; wait $clients; end; audit | sort | uniq -c | sort -u | wc -l; wc -l <etc/audit; wc -l <denied
        log | grep -c closed'
    sed 's/^ *//' "$work/out" | sort | uniq -c | sed 's/^ *//' >"$work/either" && mv "$work/either" "$work/out"
    gives_sorted '35 WELCOME' '1 900' '3 30'
}

case_authd_page() {
    readme_of authd
}
