#!/bin/sh
# Measures the server under load on loopback: what a packet costs in instructions and system calls (bench/counts.py), packets a
# second with 16 readers and with one, and what 500 and 5,000 idle clients cost (bench/wire.py). With the path of a bare fan-out program
# it is measured beside that one, in the same run. It needs valgrind and strace.
set -eu
top=$(cd "$(dirname "$0")/.." && pwd)
"$top/seedlinkd" --build
ulimit -n "$(ulimit -H -n)"
failed=0
python3 "$top/bench/counts.py" || failed=1
python3 "$top/bench/wire.py" "$@"
exit "$failed"
