# Messages of more bytes than the kernel takes.
# Read by tests/c.sh, which has the words that the cases use.

case_sha256() {
    fresh
    "$bin/sha256" known >"$work/out" 2>&1
    gives 'done'
    head -c 70000 "$bin/sha256" >"$work/d/bytes"
    for size in 0 1 55 56 57 63 64 65 119 120 128 1000 4097 70000; do
        head -c $size "$work/d/bytes" >"$work/d/part"
        "$bin/sha256" <"$work/d/part" >"$work/out"
        gives "$(sha256sum <"$work/d/part" | cut -d ' ' -f 1)"
    done
    status=
}

case_large() {
    run 'large' --long -b 'large=4,6,0' -b 'large=4,6,0'
    gives 'done'
    says 'libdoor: E2BIG: a message has at most 16,777,216 bytes' 'libdoor: E2BIG: a message has at most 16,777,216 bytes'
}

# the history has the size and the sum of what was sent
case_large_in_the_history() {
    run 'large sum 5000; sha256sum sent' --long
    said=yes
    sum=$(sed -n 's/  sent$//p' "$work/out")
    grep -q '^# --long: ' "$work/history" && grep -q '^# large2: 5000 bytes go beside the kernel$' "$work/history" || wrong "remarks" "two" "$(grep '^#' "$work/history")"
    grep -q "call 0 \"long 5000 $sum\" rsize 16777216 = wait c1\$" "$work/history" || wrong "the history" "long 5000 $sum" "$(grep ' call ' "$work/history")"
    grep -q 'return "long 5000 [0-9a-f]*" = wait$' "$work/history" || wrong "the history" "a return of long 5000" "$(grep ' return ' "$work/history")"
}

case_large_parameters() {
    run 'large least' --long
    gives 'done'
    says 'libdoor: E2BIG: a message has at most 16,777,216 bytes'
    grep -q '^# large: a call with 6001 bytes is ENOBUFS, which the kernel was not asked: data-min is 0, data-max 6000$' "$work/history" ||
        wrong "a remark" "ENOBUFS" "$(grep '^#' "$work/history")"
}

case_large_without_long() {
    run 'large small'
    gives 'done'
    says 'libdoor: E2BIG: a message of this kernel has at most 4,096 bytes; doord --long takes more' \
        'libdoor: E2BIG: a message of this kernel has at most 4,096 bytes; doord --long takes more'
}

case_large_under_signals() {
    run 'large rain' --long -b 'large=4,6,0' -b 'large=4,6,0'
    gives 'done'
}

# the server has no descriptor for the bytes of a call, which ends; nothing is left in doord, but the file that has a door attached
case_large_without_room() {
    run 'count() { ls /proc/$PPID/fd | wc -l; }
        before=$(($(count) + 1)); large room; looks=0; until [ "$(count)" -le "$before" ] || [ $looks -eq 200 ]; do looks=$((looks + 1)); sleep 0.02; done
        [ $looks -lt 200 ] && echo same' --long -b 'large=4,6,0' -b 'large=4,6,0'
    gives 'done' same
    says 'libdoor: EMFILE: there is no room for the bytes of a call: it ends with EINTR' 'libdoor: E2BIG: a message has at most 16,777,216 bytes'
}

case_large_from_hostile_programs() {
    run 'up serve w; doorwait w; unsealed; ask w "echo x"' --long -b 'hostile=2,1,0'
    gives 'done' 'echo x: x'
    run 'unsealed refused' -b 'hostile=2,1,0'
    gives 'done'
}
