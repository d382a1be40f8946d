# Headers, and the blocks of the pages.
# Read by tests/c.sh, which has the words that the cases use.

case_headers() {
    [ ! -s "$work/warned" ] || wrong "$cc" "no message" "$(cat "$work/warned")"
    for compiler in gcc clang; do
        command -v $compiler >/dev/null || continue
        for file in c/examples/*.c c/examples/*/*.c c/tests/*.c; do
            [ "$(readlink -f "$(command -v $compiler)")" != "$(readlink -f "$(command -v $cc)")" ] || break
            $compiler -c -o "$work/object" $strict -Ic/include "$file" >"$work/err" 2>&1
            [ ! -s "$work/err" ] || wrong "$compiler $file" "no message" "$(cat "$work/err")"
        done
        for header in door.h sys/door.h ucred.h stropts.h port.h; do
            echo "#include <$header>" >"$work/one.c"
            $compiler -fsyntax-only -std=c11 -Wall -Wextra -Wpedantic -Werror -Ic/include "$work/one.c" >"$work/err" 2>&1 ||
                wrong "$compiler $header" "no message" "$(cat "$work/err")"
            # where the compiler has C++
            ! $compiler -x c++ -fsyntax-only "$work/empty.cc" 2>/dev/null ||
                $compiler -x c++ -fsyntax-only -Wall -Wextra -Wpedantic -Werror -Ic/include "$work/one.c" >"$work/err" 2>&1 ||
                wrong "$compiler, as C++, $header" "no message" "$(cat "$work/err")"
        done
    done
    status=
}

# The daemon of docs/use/FROM_C.md compiles, but for arguments that it does not use, and runs where its paths may be made.
case_from_c() {
    awk '/^```c$/ { in_block = 1; next } /^```$/ { in_block = 0 } in_block' docs/use/FROM_C.md >"$work/from_c.c"
    grep -q door_create "$work/from_c.c" || wrong "docs/use/FROM_C.md" "a block of C" "none"
    for compiler in gcc clang; do
        command -v $compiler >/dev/null || continue
        $compiler -std=gnu11 -Wall -Wextra -Wpedantic -Wno-unused-parameter -Werror -c -o "$work/object" -Ic/include "$work/from_c.c" >"$work/err" 2>&1 ||
            wrong "$compiler" "no message" "$(cat "$work/err")"
    done
    sed 's|"/var/run/|"|' "$work/from_c.c" >"$work/from_c_here.c"
    $cc -std=gnu11 -o "$bin/from_c" -Ic/include "$work/from_c_here.c" -L"$out" -ldoor -pthread || wrong "docs/use/FROM_C.md" "a program" "none"
    run 'up from_c; pid=$!; doorwait named; doorwait named_admin; lookup named root; ask -k go named www & seen "return .entry of www"
        named_admin named_admin; touch go; wait $pid; echo "status $?"'
    gives_sorted 'root entry of root' 'www: entry of www' 'no new clients' 'status 0'
}

# The commands of the first page, and the blocks of docs/use/C_PROGRAMS.md, one after the other, as at the top of a clone.
case_page() {
    fresh
    awk -v to="$work/block" '/^```sh$/ { n++; in_block = 1; next } /^```$/ { in_block = 0 } in_block { print >(to n) }' docs/use/C_PROGRAMS.md
    sed -n '/^## A program in C/,/^## A lib/s/^    //p' README.md >"$work/block0"
    mkdir -p "$work/d/crates/doorlab/out" "$work/d/tools"
    ln -s "$top/c" "$work/d/c"
    ln -s "$DOORLAB" "$work/d/crates/doorlab/out/doorlab"
    ln -s "$(command -v $cc)" "$work/d/tools/cc"
    for block in 0 1 2 3; do
        (
            cd "$work/d" || exit 1
            PATH=$work/d/tools:$PATH
            TMPDIR=$work/t
            export PATH TMPDIR
            exec $most sh "$work/block$block"
        ) >"$work/page$block" 2>&1 </dev/null
    done
    for block in 0 1; do
        tail -n 2 "$work/page$block" | sed 's/^legal [0-9]*$/legal N/' >"$work/out"
        gives 'result: 81' 'legal N'
    done
    sed 's/^illegal line [0-9]*$/illegal line N/; s/^\([a-z]*\) .* = ok "\(.\).*/\1 \2/' "$work/page2" >"$work/out"
    gives 'illegal line N' 'want Q' 'have R'
    grep -q '^legal [0-9]*$' "$work/page3" || wrong "the third block" "legal N" "$(cat "$work/page3")"
}

# A program under the address sanitizer takes no preload.
case_sanitized_client() {
    $cc -fsanitize=address -std=gnu11 -g -Ic/include -o "$bin/asan_ask" c/tests/ask.c -L"$out" -ldoor -pthread >"$work/made" 2>&1 || return 0
    run 'up serve w; doorwait w; ASAN_OPTIONS=detect_leaks=0 asan_ask w "echo x"; ASAN_OPTIONS=detect_leaks=0 asan_ask -t 2 -n 100 w "echo y"' --no-preload \
        -b 'asan_ask=3,2,0'
    gives 'echo x: x' '200 ok'
}
