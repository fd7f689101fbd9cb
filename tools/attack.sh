#!/bin/bash
# Tries the edits of attack/NAME: the prover has to refuse each. (The gate tries those of crates/NAME/must-fail.)
#
#     tools/attack.sh [NAME..]
#     tools/attack.sh --old
#
# A NAME is a crate; without one all edits are tried, in a copy of the working tree in which they stand in must-fail, by
# `rt ci NAME..`. The libraries that the gate proved on this machine are taken as they are; each crate is proved once more, as the start
# for its edits. An edit that was tried here is not tried again if nothing changed that it stands on. As many are tried side by side as
# JOBS says, or else as there are processors, if each has 5 GiB of memory. Each crate has a line when its edits were tried, and what `rt`
# said is in the log. The last line counts. The status is 0 if each edit was refused.
#
# A crate whose edits were all refused has a line in attack/refused.txt, which this script writes: its name, the number of its edits, and
# a sum of all that they stand on. It is tried again once something of that has changed, so a run that was stopped goes on, also on
# another machine. To try all anew, remove the lines. With --old it tries nothing, and prints the names of the crates whose lines are
# older than what their edits stand on.
#
# The copy and the log stay in the folder ATTACK_FOLDER, or else in one below ${TMPDIR:-/tmp}, named for the path of this repository.
set -u
top=$(cd "$(dirname "$(readlink -f "$0")")/.." && pwd -P)
fail() {
    echo "attack: $1" >&2
    exit 2
}

command -v rt >/dev/null || fail "rt is not on the path"
logic=$(rt version | sed -n 's/.* logic \([0-9a-f]*\).*/\1/p')
# The crates whose edits were all refused: a name, how many edits it has, and the sum, a line each.
record=$top/attack/refused.txt

# A sum of all that a crate's edits stand on: the toolchain's logic, the edits, and the files and crates.txt's lines of the crate and of
# those below it. `tree` has them, and `files` the sum of each file there.
sum_of() {
    local lines
    lines=$(awk -F: -v top="$1" '!/^#/ && NF { name[++n] = $1; uses[n] = $2; line[n] = $0 }
        END { is[top] = 1
            for (; n; n--) if (is[name[n]]) { print line[n]; k = split(uses[n], below, " "); for (; k; k--) is[below[k]] = 1 } }' "$tree/crates.txt")
    {
        printf '%s\n' "$logic" "$lines"
        cat "$tree/HANDLES"
        cut -d: -f1 <<<"$lines" | while read -r it; do grep -E " crates/$it/(src|specs|proofs)/" <<<"$files"; done
        grep " crates/$1/must-fail/" <<<"$files"
    } | sha256sum | cut -d' ' -f1
}
# The files below some folders that git does not ignore, but for the edits of the gate.
sources() {
    git ls-files -z --cached --others --exclude-standard -- "$@" ':(exclude)crates/*/must-fail/*' |
        while IFS= read -r -d '' it; do [ ! -f "$it" ] || printf '%s\0' "$it"; done
}

# What the copy of a run would have: the edits of attack are those of must-fail there.
if [ "$*" = --old ]; then
    cd "$top" && git ls-files --error-unmatch crates.txt >/dev/null || fail "git can't read the repository in $top"
    tree=$top
    files=$({
        sources crates | xargs -0 sha256sum
        sha256sum attack/*/*.edit | sed -E 's|  attack/([^/]*)/|  crates/\1/must-fail/|'
    } | LC_ALL=C sort -k 2)
    while read -r name _ sum; do [ "$sum" = "$(sum_of "$name")" ] || echo "$name"; done <"$record"
    exit
fi

room=$(realpath -m -- "${ATTACK_FOLDER:-${TMPDIR:-/tmp}/attack-$(printf %s "$top" | sha256sum | cut -c 1-12)}")
case $room/ in "$top"/*) fail "the copy has to be outside of the repository, and not in $room" ;; esac
mkdir -p "$room" || exit 2
[ -O "$room" ] || fail "$room belongs to somebody else"
[ -f "$room/lock" ] || [ -z "$(ls -A "$room")" ] || fail "$room has other files"
exec 9>"$room/lock"
flock -n 9 || fail "another run works in $room"
copy=$room/copy
log=$room/log
mkdir -p "$copy"

cd "$top" || exit 2
[ $# -gt 0 ] || set -- attack/*/
set -- "${@#attack/}"
mapfile -t names < <(printf '%s\n' "${@%/}" | sort -u)
for name in "${names[@]}"; do
    compgen -G "attack/$name/*.edit" >/dev/null || fail "there are no edits in attack/$name"
done
memory=$(($(getconf _PHYS_PAGES) * $(getconf PAGE_SIZE) >> 30))
most=$(($(nproc) < memory / 5 ? $(nproc) : memory / 5))
jobs=${JOBS:-$((most > 1 ? most : 1))}
[[ $jobs =~ ^[1-9][0-9]*$ ]] || fail "JOBS is not a number of crates: $jobs"

# Brings the copy up to date: all files that git does not ignore, with the edits of attack in place of the gate's.
update() {
    rm -rf -- "${copy:?}" && mkdir -p "$copy" || return 1
    sources . | xargs -0 cp --parents -t "$copy" -- || return 1
    for name in "${names[@]}"; do
        mkdir -p "$copy/crates/$name/must-fail" && cp "attack/$name"/*.edit "$copy/crates/$name/must-fail" || return 1
    done
}

# Writes the line of a crate.
note() {
    { grep -sv "^$1 " "$record"; echo "$1 $2 ${sums[$1]}"; } | LC_ALL=C sort >"$record.new" && mv "$record.new" "$record"
}
# How many edits were refused of a crate that has a line, and nothing if something changed that they stand on.
noted() { sed -n "s/^$1 \([0-9]*\) ${sums[$1]}\$/\1/p" "$record" 2>/dev/null; }

# How many lines the log has of a crate's edits that say so.
said() { grep -cE "^rt: must-fail $1/[^/]*\.edit: $2" "$log"; }
# Counts what the log has of a crate, adds it to the counts of all, and prints the crate's line.
declare -A count=([tried]=0 [refused]=0 [not_refused]=0 [bad]=0 [left]=0)
tell() {
    local of refused not_refused bad left
    of=$(find "$copy/crates/$1/must-fail" -name '*.edit' | wc -l)
    refused=$(said "$1" "refused, as it must be")
    not_refused=$(said "$1" "NOT REFUSED")
    bad=$(said "$1" "BAD EDIT")
    left=$((of - refused - not_refused - bad))
    count[refused]=$((count[refused] + refused)) count[not_refused]=$((count[not_refused] + not_refused))
    count[bad]=$((count[bad] + bad)) count[left]=$((count[left] + left)) count[tried]=$((count[tried] + of - left))
    echo "$1: $(counts $((of - left)) "$refused" "$not_refused" "$bad" "$left")"
    [ "$refused" -ne "$of" ] || note "$1" "$of"
}
counts() {
    echo "$1 tried, $2 refused, $3 not refused, $4 bad$([ "$5" -eq 0 ] || echo "; $5 not tried")"
}

# ---- which crates are left to try

update || fail "the copy in $copy could not be made"
echo "attack: the copy and the log are in $room" >&2
tree=$copy
files=$(cd "$copy" && find crates -path 'crates/*/out' -prune -o -type f -print | LC_ALL=C sort | xargs sha256sum)
declare -A sums
left=()
for name in "${names[@]}"; do
    sums[$name]=$(sum_of "$name")
    of=$(noted "$name")
    if [ -n "$of" ]; then
        echo "$name: $(counts "$of" "$of" 0 0 0), by an earlier run"
        count[refused]=$((count[refused] + of)) count[tried]=$((count[tried] + of))
    else
        left+=("$name")
    fi
done
# What an earlier run tried is not tried again.
for name in "${names[@]}"; do case " ${left[*]} " in *" $name "*) ;; *) rm -rf "$copy/crates/$name/must-fail" ;; esac; done

# ---- those are tried

running=
stop() {
    trap '' HUP INT TERM
    kill ${running:+"$running"} 2>/dev/null
    wait
    echo "attack: stopped; run it again to go on" >&2
    exit 130
}
trap stop HUP INT TERM
# Tells each crate whose edits all have a line in the log.
tell_tried() {
    local waiting=()
    for name in "${untold[@]}"; do
        if [ "$(said "$name" '')" -ge "$(find "$copy/crates/$name/must-fail" -name '*.edit' | wc -l)" ]; then
            tell "$name"
        else
            waiting+=("$name")
        fi
    done
    untold=("${waiting[@]}")
}
untold=("${left[@]}")
if [ "${#left[@]}" -gt 0 ]; then
    (cd "$copy" && RT_JOBS=$jobs exec rt ci "${left[@]}") >"$log" 2>&1 &
    running=$!
    while kill -0 "$running" 2>/dev/null; do
        sleep 5 9>&- & # which must not hold the lock
        wait -n "$running" $!
        tell_tried
    done
    wait "$running"
    running=
    tell_tried
    for name in "${untold[@]}"; do tell "$name"; done
    grep -hE ": (NOT REFUSED|BAD EDIT|NOT TRIED): " "$log"
fi
counts "${count[tried]}" "${count[refused]}" "${count[not_refused]}" "${count[bad]}" "${count[left]}"
[ $((count[not_refused] + count[bad] + count[left])) -eq 0 ]
