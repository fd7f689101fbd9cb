#!/bin/sh
# Makes a Debian package and an archive of the program: out/seedlinkd_VERSION_amd64.deb and .tar.gz, with the same files. The
# archive has an `install` besides.
#
#     tools/package.sh               of the built program, which is proved and built first if it is not yet
#     tools/package.sh --released    of the program in releases/, without the toolchain
#
# Both files depend on nothing but the commit and the program: made again from the same commit they are the same bytes. What
# stands in the package beside the program is in tools/package.
set -eu
umask 022
export LC_ALL=C TZ=UTC
top=$(cd "$(dirname "$(readlink -f "$0")")/.." && pwd)
cd "$top"
fail() {
    echo "package: $1" >&2
    exit 1
}
[ "$*" = "" ] || [ "$*" = --released ] || fail "tools/package.sh [--released]"
room=$(mktemp -d)
trap 'rm -rf "$room"' EXIT
trap 'exit 130' HUP INT TERM
of_release() { sed -n "s/^$1 //p" releases/release.txt; }
# The version of the sources. The program says its own, and with which logic it was proved.
version=$(sed -n 's/^pub const VERSION: &str = "\([^ ]*\) .*";$/\1/p' crates/command_line/src/commands.rt)
changes=
if [ "$*" = --released ]; then
    released=releases/seedlinkd_$(of_release version)_amd64.tar.gz
    (cd releases && sha256sum --status -c SHA256SUMS) || fail "the archive in releases is not the one of releases/SHA256SUMS"
    program=$room/seedlinkd
    tar -xzf "$released" -O --wildcards '*usr/bin/seedlinkd' >"$program" && chmod 755 "$program" || fail "$released has no program"
    commit=$(of_release commit)
else
    ./seedlinkd --build
    program=crates/seedlinkd/out/seedlinkd
    commit=$(git rev-parse HEAD)
    [ -z "$(git status --porcelain)" ] || changes="
    Files of it were changed since."
fi
said=$("$program" --version)
logic=$(echo "$said" | sed -n 's/.*, logic \([0-9a-f]*\))$/\1/p')
[ "$said" = "seedlinkd $version (each function proved, logic $logic)" ] || fail "the program has another version than its sources"
SOURCE_DATE_EPOCH=$(git log -1 --format=%ct)
export SOURCE_DATE_EPOCH
date=$(date -d "@$SOURCE_DATE_EPOCH" '+%a, %d %b %Y %H:%M:%S +0000')
maintainer="Moreltiller maintainers <maintainers@users.noreply.moreltiller.example>"

tree=$room/tree
doc=$tree/usr/share/doc/seedlinkd
parts=$top/tools/package

# Puts a file, or what it is given, into the tree. The manual pages and the changelog are compressed, as Debian has them.
put() { install -D -m "$1" "$2" "$tree/$3"; }
put_text() { mkdir -p "$(dirname "$tree/$1")" && cat >"$tree/$1"; }
put_compressed() { mkdir -p "$(dirname "$tree/$1")" && gzip -9 -n >"$tree/$1"; }

put 755 "$program" usr/bin/seedlinkd
strip --remove-section=.comment --remove-section=.note "$tree/usr/bin/seedlinkd"
for page in seedlinkd.8 seedlinkd.toml.5; do
    sed "s|examples/loopback.toml|/etc/seedlinkd/seedlinkd.toml|; s|docs/\([A-Z]*\.md\)|/usr/share/doc/seedlinkd/\1|
        s|^\.It Pa examples/\(seedlinkd[-a-z@]*.service\)|.It Pa /usr/lib/systemd/system/\1|
        s|examples/records/|/usr/share/doc/seedlinkd/&|" "docs/$page" >"$room/page"
    put_compressed "usr/share/man/man${page##*.}/$page.gz" <"$room/page"
done
for unit in examples/*.service; do
    case $unit in
        *@.service) head='# A unit of which each instance is a server' ;;
        *) head="# The configuration is /etc/seedlinkd/seedlinkd.toml. To run it: systemctl enable --now $(basename "$unit" .service)" ;;
    esac
    sed '/^# A unit for systemd/,/^# \/etc/d; s|/usr/local/bin/|/usr/bin/|; s|/etc/seedlinkd.toml|/etc/seedlinkd/seedlinkd.toml|' "$unit" |
        sed "1i $head" | put_text "usr/lib/systemd/system/$(basename "$unit")"
done
put 640 "$parts/seedlinkd.toml" etc/seedlinkd/seedlinkd.toml
put 644 "$parts/sysusers.conf" usr/lib/sysusers.d/seedlinkd.conf
put 644 "$parts/completion.bash" usr/share/bash-completion/completions/seedlinkd
put 644 "$parts/lintian-overrides" usr/share/lintian/overrides/seedlinkd
# Pages stand in one folder there, with those that they name; what is not packed is named without a link.
for page in CHANGELOG.md docs/PROFILE.md docs/CONFIGURATION.md docs/COMMANDS.md docs/DIALOGUE.md docs/OPERATING.md docs/STATUS.md docs/MIGRATING.md docs/DEFINITIONS.md; do
    sed 's|](docs/|](|g; s|](\.\./examples/|](examples/|g; s|\[\([^]]*\)\](\.\./[^)]*)|\1|g' "$page" |
        put_text "usr/share/doc/seedlinkd/$(basename "$page")"
done
for example in examples/* examples/records/* examples/many_servers/* examples/prometheus/*; do
    if [ -x "$example" ] && [ -f "$example" ]; then put 755 "$example" "usr/share/doc/seedlinkd/$example"
    elif [ -f "$example" ]; then put 644 "$example" "usr/share/doc/seedlinkd/$example"; fi
done
sed -i 's|](../../docs/|](../../|g' "$doc"/examples/*/README.md
put_compressed usr/share/doc/seedlinkd/changelog.gz <<EOF
seedlinkd ($version) unstable; urgency=medium

  * Built from commit $commit.$changes
    All of it was proved with the logic $logic before it was built.

 -- $maintainer  $date
EOF

# What the program needs of the C library, as Debian finds it.
mkdir -p "$room/debian" "$tree/DEBIAN"
printf 'Source: seedlinkd\n\nPackage: seedlinkd\nArchitecture: amd64\n' >"$room/debian/control"
needs=$(cd "$room" && dpkg-shlibdeps -O tree/usr/bin/seedlinkd 2>/dev/null | sed -n 's/^shlibs:Depends=//p')
cat >"$tree/DEBIAN/control" <<EOF
Package: seedlinkd
Version: $version
Architecture: amd64
Maintainer: $maintainer
Installed-Size: $(du -k --apparent-size -s --exclude=DEBIAN "$tree" | cut -f1)
Depends: $needs, init-system-helpers (>= 1.54~), systemd | systemd-standalone-sysusers | systemd-sysusers
Section: science
Priority: optional
Description: SeedLink 3 server whose stations are open to stated addresses only
 A server of seismic records (miniSEED, 512 bytes) that speaks SeedLink 3. Each
 station is open to stated addresses only, and one that is closed to a client
 answers exactly as one that does not exist: that is proved of the code that
 serves. The program is also a feeder, a reader in the manner of slinktool, and
 a checker of records.
EOF
echo /etc/seedlinkd/seedlinkd.toml >"$tree/DEBIAN/conffiles"
for script in postinst prerm postrm; do install -m 755 "$parts/$script" "$tree/DEBIAN/$script"; done
(cd "$tree" && find usr -type f | sort | xargs md5sum) >"$tree/DEBIAN/md5sums"
find "$tree" -exec touch -h -d "@$SOURCE_DATE_EPOCH" {} +

mkdir -p out
made=out/seedlinkd_${version}_amd64
dpkg-deb --root-owner-group -Zxz --build "$tree" "$made.deb" >/dev/null
# The archive has one folder, with the same files, and folders with their modes, whatever the umask of who unpacks them.
packed=seedlinkd-$version
mkdir "$room/$packed"
mv "$tree/etc" "$tree/usr" "$room/$packed"
install -m 755 "$parts/install" "$room/$packed/install"
find "$room/$packed" -exec touch -h -d "@$SOURCE_DATE_EPOCH" {} +
(cd "$room" && find "$packed" | sort | tar --owner=0 --group=0 --numeric-owner --no-recursion -cf - -T -) | gzip -9 -n >"$made.tar.gz"
ls -l "$made.deb" "$made.tar.gz" | awk '{ print $9, $5, "bytes" }'
