#!/bin/sh
# Makes the release in releases/ again, from a clean clone of the commit that it names, compares the bytes, and says what differs.
#
#     tools/try_release.sh [--anew]
#
# If the program is built here from the sources of the release (./seedlinkd --build), the clone takes that one, since a build takes
# forty minutes. With --anew the clone builds its own. The same bytes need the same toolchain, tar, gzip and strip.
set -eu
top=$(cd "$(dirname "$(readlink -f "$0")")/.." && pwd)
fail() {
    echo "try_release: $1" >&2
    exit 1
}
of_release() { sed -n "s/^$1 //p" "$top/releases/release.txt"; }

[ "$*" = "" ] || [ "$*" = --anew ] || fail "tools/try_release.sh [--anew]"
[ -f "$top/releases/release.txt" ] || fail "there is no release in releases"
# The archive, and since version 0.3.0 the package.
names=$(sed 's/.*  //' "$top/releases/SHA256SUMS")
commit=$(of_release commit)
(cd "$top/releases" && sha256sum --status -c SHA256SUMS) || fail "what is in releases is not that of releases/SHA256SUMS"
[ "$(rt version)" = "$(of_release toolchain)" ] || fail "it was made with $(of_release toolchain), and this is $(rt version)"

room=$(mktemp -d)
trap 'rm -rf "$room"' EXIT
trap 'exit 130' HUP INT TERM
clone=$room/clone
git clone --quiet --no-checkout "$top" "$clone"
git -C "$clone" checkout --quiet --detach "$commit" || fail "this repository has no commit $commit"

program=crates/seedlinkd/out/seedlinkd
sum=$top/$program.sum
if [ $# -eq 0 ] && [ -x "$top/$program" ] && [ "$(cat "$sum" 2>/dev/null)" = "$(of_release sources)" ] && [ -z "$(find "$top/$program" -newer "$sum")" ]; then
    echo "the program is the one that was built here from the same sources"
    mkdir -p "$clone/${program%/*}"
    cp "$top/$program" "$clone/$program"
fi
"$clone/tools/package.sh" >/dev/null
[ "$(cat "$clone/$program.sum")" = "$(of_release sources)" ] || fail "release.txt has another sum of sources than commit $commit"

archive=
for name in $names; do
    if cmp -s "$clone/out/$name" "$top/releases/$name"; then
        echo "$name was made again from commit $commit: the same bytes"
    elif [ "${name%.deb}" = "$name" ]; then
        archive=$name
    else
        echo "$name differs"
        other=yes
    fi
done
[ -n "$archive" ] || [ -z "${other:-}" ] || fail "the package differs, and the archive doesn't"
[ -n "$archive" ] || exit 0
cp "$clone/out/$archive" "$room/made.tar.gz"
cp "$top/releases/$archive" "$room/released.tar.gz"
cd "$room"
for it in released made; do
    mkdir "$it"
    tar -xzf "$it.tar.gz" -C "$it"
    tar -tvzf "$it.tar.gz" >"$it.list"
done
if diff released.list made.list && diff -rq released made; then
    fail "$archive has the same files, but was packed in another way"
fi
fail "$archive differs in these files"
