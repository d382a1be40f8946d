#!/bin/sh
# Plays texts that are scripts but for changes: bytes changed, lines cut, doubled and exchanged, of the scripts of tests/play and of
# examples/. Each is to be answered within a second: by one line of status 2 and nothing else, or as a script; and the error stream has one message where
# the status is not 0, lines below it, and warnings. It is no part of the gate.
#
# tests/malformed.sh [COUNT [PROGRAM]]     20000 texts, and the program that `rt ci` left; the same texts each time

LC_ALL=C
export LC_ALL
top=$(cd "$(dirname "$0")/.." && pwd) || exit 1
exec python3 - "$top" "${1-20000}" "${2-$top/crates/doors/out/doors}" <<'END'
import glob, random, re, subprocess, sys

top, count, program = sys.argv[1], int(sys.argv[2]), sys.argv[3]
choose = random.Random(20261129)
names = sorted(glob.glob(top + '/tests/play/*/*.in') + glob.glob(top + '/examples/*.doors'))
texts = [text for text in (open(name, 'rb').read() for name in names) if 0 < len(text) < 4000]
LETTERS = b'abcdefghijklmnopqrstuvwxyz$!"# 0123456789\n\r\t\x00\x7f\x80\xff'
WORDS = [b'thread', b'process', b'proc', b'end', b'serve', b'call', b'repeat 3', b'if $r ok', b'budget 5', b'schedule', b'return $arg', b'trace', b'spare s9', b'fork c',
         b'tcreate 0 1', b'tset 0 1 1', b'advance 3', b'ncd r "get a"', b'doors script 4']


def change_byte(text):
    at = choose.randrange(len(text))
    return text[:at] + bytes([choose.choice(LETTERS)]) + text[at + 1:]


def cut(text):
    return text[:choose.randrange(len(text))]


def drop_byte(text):
    at = choose.randrange(len(text))
    return text[:at] + text[at + 1:]


def of_lines(change):
    def changed(text):
        lines = text.split(b'\n')
        change(lines)
        return b'\n'.join(lines)
    return changed


def double(lines):
    at = choose.randrange(len(lines))
    lines.insert(at, lines[at])


def exchange(lines):
    one, other = choose.randrange(len(lines)), choose.randrange(len(lines))
    lines[one], lines[other] = lines[other], lines[one]


def drop(lines):
    del lines[choose.randrange(len(lines))]


def insert(lines):
    lines.insert(choose.randrange(len(lines) + 1), choose.choice(WORDS))


def exchange_words(lines):
    at = choose.randrange(len(lines))
    words = lines[at].split(b' ')
    choose.shuffle(words)
    lines[at] = b' '.join(words)


CHANGES = [change_byte, change_byte, cut, drop_byte] + [of_lines(change) for change in (double, exchange, drop, insert, exchange_words)]
BAD = re.compile(rb'bad line [0-9]+ [a-z]+\n')
TOLD = re.compile(rb'((doors:|   ) [ -~]*\n)*')
ANSWERS = {b'end complete': 0, b'end stalled': 1, b'end budget': 4, b'refused turn': 8}
statuses, wrong = {}, 0
for number in range(count):
    text = choose.choice(texts)
    for _ in range(choose.choice((1, 1, 1, 2, 3, 8))):
        text = choose.choice(CHANGES)(text) or b'\n'
    why = None
    try:
        done = subprocess.run([program, 'play'], input=text, capture_output=True, timeout=1)
        status, out = done.returncode, done.stdout
        if status == 2:
            if not BAD.fullmatch(out):
                why = 'status 2 with other output'
        else:
            last = out.rstrip(b'\n').rsplit(b'\n', 1)[-1]
            if not any(last.startswith(begin) and status == of for begin, of in ANSWERS.items()):
                why = 'status %d with the last line %r' % (status, last)
        messages = len(re.findall(rb'^doors: (?!warning: )', done.stderr, re.M))
        if not TOLD.fullmatch(done.stderr) or messages != (status != 0):
            why = 'status %d with %r on the error stream' % (status, done.stderr[:200])
    except subprocess.TimeoutExpired:
        status, why = None, 'more than a second'
    statuses[status] = statuses.get(status, 0) + 1
    if why:
        wrong += 1
        print('text %d: %s' % (number, why))
        sys.stdout.flush()
print('texts: %d; by status: %s; wrong: %d' % (count, ', '.join('%s: %d' % (k, statuses[k]) for k in sorted(statuses, key=str)), wrong))
sys.exit(wrong > 0)
END
