#!/bin/sh
# What takes long of the tests of C programs: minutes a case. It is run by hand, and is no part of .ci/run.
#
# usage: tests/c_long.sh [--repeat N] [--plain] [--list] [CASE ..]
#
# A case is a function case_NAME in a file of tests/c_long, each of which has a subject; it has the words of tests/c.sh and of the files of
# tests/c, whose cases can be named here, too. MINUTES is how long a case may search that has no end of its own (1).
# The last line is `N passed, N failed`, as that of tests/c.sh.

. "$(dirname "$0")/c.sh"
