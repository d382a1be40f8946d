#!/usr/bin/env python3
"""Seconds and peak memory of `doors show`. Run by hand, after `rt run` built the program in crates/doors.

usage: bench/show.py [PROGRAM] [RUNS]"""

import os
import subprocess
import sys
import tempfile
import time

TOP = os.path.dirname(os.path.dirname(os.path.abspath(__file__)))


def commands(size):
    """Long bodies of one process: calls with data and descriptors, loops and conditions."""
    lines = ["doors script 1", "process p", "proc e", "return $arg", "end"]
    block = ["create d e 7 unref no-cancel", "repeat 10", 'call r $d "some bytes" + $arg desc $d $d! rsize 100', "if ok", "close $r.1", "end", "end"]
    each = sum(len(line) + 1 for line in block)
    for thread in range(50):
        lines += [f"thread t{thread}"] + block * (size // 50 // each) + ["end"]
    return lines


def paths(size):
    """One thread that names a new path at each line."""
    return ["doors script 1", "process p", "thread t"] + [f"await path{n}" for n in range(size // 16)] + ["end"]


def show(program, script):
    """Seconds, peak memory in KiB, and how many bytes were written."""
    with tempfile.TemporaryFile() as source, tempfile.TemporaryFile() as sink:
        source.write(script)
        source.seek(0)
        start = time.monotonic()
        child = subprocess.Popen([program, "show"], stdin=source, stdout=sink)
        _, status, usage = os.wait4(child.pid, 0)
        seconds = time.monotonic() - start
        assert status == 0, status
        return seconds, usage.ru_maxrss, os.fstat(sink.fileno()).st_size


def main():
    program = sys.argv[1] if len(sys.argv) > 1 else os.path.join(TOP, "crates/doors/out/doors")
    runs = int(sys.argv[2]) if len(sys.argv) > 2 else 5
    for kind in (commands, paths):
        for size in (500_000, 1_000_000):
            script = "\n".join(kind(size)).encode() + b"\n"
            seconds, peak, written = min(show(program, script) for _ in range(runs))
            print(f"{kind.__name__}: {len(script)} bytes shown as {written} in {seconds:.3f} s, {peak} KiB")


if __name__ == "__main__":
    main()
