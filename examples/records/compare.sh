#!/bin/sh
# Compares what `seedlinkd check` says of the records with what libmseed reads in them, line by line. It fails where a line
# differs, or where the check finds a fault.
set -eu
here=$(cd "$(dirname "$0")" && pwd)
folder=$(mktemp -d)
trap 'rm -rf "$folder"' EXIT
"$here/../../seedlinkd" --build
"$here/../../crates/seedlinkd/out/seedlinkd" check "$here/records.mseed" >"$folder/listing"
# libmseed's line has no type and no end.
awk '{ print $1, $2, $3, $4, $5, $7, $9 }' "$folder/listing" | diff "$here/records.txt" -
printf '%s lines agree\n' "$(wc -l <"$here/records.txt")"
