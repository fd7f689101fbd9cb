#!/bin/sh
# Runs the server for ten minutes, or for the seconds given, under clients that come, go, reset and stall. See bench/soak.py.
set -eu
top=$(cd "$(dirname "$0")/.." && pwd)
"$top/seedlinkd" --build
exec python3 "$top/bench/soak.py" "$@"
