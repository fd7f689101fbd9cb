#!/bin/sh
# Makes a release of the commit that is checked out: puts the package and the archive of tools/package.sh into releases/, with their sums in SHA256SUMS
# and, in release.txt, the version, the commit, the toolchain and a sum of the program's sources. It commits nothing.
#
#     tools/release.sh VERSION
#
# The working tree has to be clean, VERSION that of the sources and the first one in CHANGELOG.md, and no line of attack/refused.txt
# older than what it stands on. The gate has to pass: it is run here, which takes over what passed on this machine before, and leaves
# the program that is released.
set -eu
top=$(cd "$(dirname "$(readlink -f "$0")")/.." && pwd)
cd "$top"
fail() {
    echo "release: $1" >&2
    exit 1
}
is_clean() { [ -z "$(git status --porcelain)" ]; }

[ $# -eq 1 ] || fail "tools/release.sh VERSION"
version=$(sed -n 's/^pub const VERSION: &str = "\([^ ]*\) .*";$/\1/p' crates/command_line/src/commands.rt)
[ "$1" = "$version" ] || fail "the version of the sources is $version (VERSION in crates/command_line/src/commands.rt)"
[ "$1" = "$(sed -n 's/^## \([^ ]*\).*/\1/p' CHANGELOG.md | head -n 1)" ] || fail "the first version in CHANGELOG.md is another one"
is_clean || fail "the working tree is not clean: git status says what was changed"
old=$(tools/attack.sh --old) || fail "attack/refused.txt could not be compared with the sources"
[ -z "$old" ] || fail "lines of attack/refused.txt are older than their files; tools/attack.sh tries these crates again: $(echo $old)"
commit=$(git rev-parse HEAD)
rt ci || fail "the gate did not pass"

# The gate leaves the program that it proved and ran: the same bytes as ./seedlinkd --build makes.
program=crates/seedlinkd/out/seedlinkd
tools/package.sh
is_clean && [ "$(git rev-parse HEAD)" = "$commit" ] || fail "files were changed while the release was made"

made=seedlinkd_${version}_amd64
mkdir -p releases
rm -rf releases/.unpacked releases/seedlinkd_*.tar.gz releases/seedlinkd_*.deb
cp "out/$made.tar.gz" "out/$made.deb" releases
(cd releases && sha256sum "$made.tar.gz" "$made.deb" >SHA256SUMS)
printf 'version %s\ncommit %s\ntoolchain %s\nsources %s\n' "$version" "$commit" "$(rt version)" "$(cat "$program.sum")" >releases/release.txt
cat releases/release.txt
echo "release: tools/try_release.sh makes it again; to commit it: git add -A releases && git commit -m 'release: $version'"
