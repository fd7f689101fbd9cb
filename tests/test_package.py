"""The package and the archive of the program: what is in them, and with --all that the package works in a bare Debian, also under systemd.

The package is made of the program that is tried, in a copy of the repository. In place of the prover stands a script that has the
program's logic. The bare Debian needs root, debootstrap, lintian and Debian's packages, 600 MB in $TMPDIR and a kernel with cgroup2.
"""

import glob
import gzip
import hashlib
import os
import re
import shutil
import stat
import subprocess
import tarfile

import kit

NEEDED = ("git", "dpkg-deb", "dpkg-shlibdeps", "strip", "gzip", "tar")
DOC = "usr/share/doc/seedlinkd"
SERVER, READER = "seedlinkd", "seedlinkd-archive@127.0.0.1:18000"
# What is run under systemd in the bare Debian, and says what it sees.
UNITS = r"""#!/bin/bash
exec >/root/said 2>&1
reader=seedlinkd-archive@127.0.0.1:18000
sds=/var/lib/seedlinkd-archive/127.0.0.1:18000/sds
states() {
    for unit in seedlinkd "$reader"; do
        echo "$1: $unit $(systemctl is-active "$unit"), restarts $(systemctl show -P NRestarts "$unit")"
    done
}
pids() { systemctl show -P MainPID seedlinkd "$reader"; }
# Waits until a command prints a line with a text, for twenty seconds.
await() { for _ in $(seq 200); do "${@:2}" 2>/dev/null | grep -q -- "$1" && return; sleep 0.1; done; echo "waited in vain: $1"; }
dpkg -i /root/seedlinkd.deb >/root/dpkg 2>&1 || echo "dpkg -i failed"
mkdir /etc/seedlinkd-archive
echo 'WANTS=GE_APE CH_DAVOX' >/etc/seedlinkd-archive/127.0.0.1:18000.conf
systemctl enable --now seedlinkd 2>/dev/null
await " APE " seedlinkd status 127.0.0.1:18002
systemctl enable --now "$reader" 2>/dev/null
await "refused CH DAVOX" journalctl -u "$reader" -o cat
seedlinkd -v feed 127.0.0.1:18001 /usr/share/doc/seedlinkd/examples/records/records.mseed
archived() { find "$sds" -type f -name '*.D.*' | xargs cat | seedlinkd check /dev/stdin --quiet --summary; }
await "GE APE -- BHZ D 15 " archived
states "after a feed"
seedlinkd status 127.0.0.1:18002 | awk '$2 == "APE" { print "its status port:", $1, $2, $3, $5, "records" }'
for it in $(pids); do
    grep -q '^Seccomp:.2' "/proc/$it/status" && grep -q '^CapEff:.0*$' "/proc/$it/status" &&
        echo "system calls are filtered, no capability"
done
archived
# New lists: one that is no list is refused by the reload itself, and another one is in force once that ends.
list=/etc/seedlinkd/seedlinkd.toml
cp -p "$list" /root/lists
sed '0,/^access = .*/s//access = "10.0.0.300"/' /root/lists >/root/new && cat /root/new >"$list"
systemctl reload seedlinkd 2>/dev/null && echo "a reload of an invalid list failed to fail" || echo "a reload of an invalid list fails"
sed '0,/^access = .*/s//access = "127.0.0.0\/16"/' /root/lists >/root/new && cat /root/new >"$list"
systemctl reload seedlinkd && echo "a reload of another list ends"
await "new configuration in force" journalctl -u seedlinkd -o cat
cat /root/lists >"$list"
journalctl -u seedlinkd -u "$reader" -o cat | sort
before=$(pids)
dpkg -i --force-confold /root/newer.deb >>/root/dpkg 2>&1 || echo "the upgrade failed"
await "^active" systemctl is-active seedlinkd
await "^active" systemctl is-active "$reader"
states "after an upgrade"
for it in $before; do [ ! -e "/proc/$it" ] || echo "process $it was not restarted"; done
dpkg -r seedlinkd >>/root/dpkg 2>&1 || echo "dpkg -r failed"
pgrep -x seedlinkd >/dev/null && echo "a program is left" || echo "after a removal: no program is left"
"""
UNIT = """[Unit]
After=multi-user.target
[Service]
Type=oneshot
ExecStart=/bin/bash /root/units
ExecStopPost=systemctl --no-block exit 0
[Install]
WantedBy=multi-user.target
"""
# Boots the bare Debian in namespaces of its own, with loopback as its only network.
BOOT = """set -e
cd "$1"
mount --bind . .
cd "$1"
mount -t proc proc proc
mount -t sysfs -o ro sysfs sys
mount -t cgroup2 cgroup2 sys/fs/cgroup
mount -t tmpfs -o mode=755 tmpfs dev
for it in null zero full random urandom tty; do : >"dev/$it" && mount --bind "/dev/$it" "dev/$it"; done
ln -s /proc/self/fd dev/fd
mkdir dev/shm dev/pts
mount -t devpts -o newinstance,ptmxmode=666 devpts dev/pts
ln -s pts/ptmx dev/ptmx
for it in dev/shm run tmp; do mount -t tmpfs tmpfs "$it"; done
ip link set lo up
pivot_root . old
umount -l old
exec env -i container=tests /lib/systemd/systemd --unit=multi-user.target </dev/null >/dev/null 2>&1
"""
# It is in a group of its own, so that systemd has no other processes than these, and ends within two minutes.
ENTER = """set -e
mount -t cgroup2 cgroup2 "$1/mnt"
group=$1/mnt/tests.$$
mkdir "$group"
echo $$ >"$group/cgroup.procs"
timeout -k 5 120 unshare --mount --pid --fork --cgroup --net --uts --ipc --kill-child sh "$1/root/boot" "$1" || true
echo $$ >"$1/mnt/cgroup.procs"
find "$group" -depth -type d -exec rmdir {} + 2>/dev/null || true
"""
# What stands at the beginning of a line of what was said under systemd.
SAID = [
    "after a feed: %s active, restarts 0" % SERVER,
    "after a feed: %s active, restarts 0" % READER,
    "seedlinkd: refused CH DAVOX",
    "its status port: GE APE ok 15 records",
    "a reload of an invalid list fails",
    "a reload of another list ends",
    "seedlinkd: new configuration in force",
    "GE APE -- BHZ D 15 ",
    "after an upgrade: %s active" % SERVER,
    "after an upgrade: %s active" % READER,
    "after a removal: no program",
]


# Words of `install`, and what it says.
NOT_INSTALLED = [
    (["none"], "there is no folder none"),
    (["root", "root"], "usage: ./install [--remove] [ROOT]"),
    (["--purge"], "usage: ./install [--remove] [ROOT]"),
]


def text_of(*names):
    with open(os.path.join(*names), encoding="utf-8") as file:
        return file.read()


class Made(kit.Test):
    """Has a package made: `deb` and `archive` are the paths of its files."""

    def setUp(self):
        super().setUp()
        missing = [it for it in NEEDED if not shutil.which(it)]
        if missing:
            self.skipTest("there is no %s: apt-get install dpkg-dev binutils git" % ", ".join(missing))
        said = self.run_program("--version").printed.split()
        self.version, self.logic = said[1], re.search(r"logic (\w+)", " ".join(said)).group(1)
        of_sources = re.search(r'VERSION: &str = "(\S+) ', text_of(kit.TREE, "crates/command_line/src/commands.rt")).group(1)
        if self.version != of_sources:
            self.skipTest("the program is %s, and the sources are %s" % (self.version, of_sources))

    def ran(self, *words, **how):
        """What a program prints, which ends with status 0."""
        done = subprocess.run(words, stdout=subprocess.PIPE, stderr=subprocess.PIPE, check=False, **how)
        self.assertEqual(done.returncode, 0, "%s: %s" % (" ".join(words), (done.stdout + done.stderr)[-1500:].decode("utf-8", "replace")))
        return done.stdout.decode("utf-8", "replace")

    def make(self):
        """Makes the package in a copy of the repository, in which the program counts as built."""
        ignored = shutil.ignore_patterns("out", ".git", ".unpacked", "__pycache__", ".build-*", "proofs", "specs", "must-fail", "attack")
        shutil.copytree(kit.TREE, "tree", symlinks=True, ignore=ignored)
        who = ["-c", "user.name=Tests", "-c", "user.email=tests@example.org"]
        for words in (["init", "-q"], ["add", "-A"], who + ["commit", "-qm", "a commit"]):
            self.ran("git", *words, cwd="tree")
        os.makedirs("tree/crates/seedlinkd/out")
        shutil.copy(kit.PROGRAM, "tree/crates/seedlinkd/out/seedlinkd")
        kit.write("bin/rt", "#!/bin/sh\necho kit logic %s\n" % self.logic)
        os.chmod("bin/rt", 0o755)
        self.pack()
        base = "tree/out/seedlinkd_%s_amd64" % self.version
        self.deb, self.archive = base + ".deb", base + ".tar.gz"

    def pack(self):
        self.ran("tools/package.sh", cwd="tree", env={**os.environ, "PATH": os.path.abspath("bin") + ":" + os.environ["PATH"]})


class Package(Made):
    @kit.limit(120)
    def test_what_is_in_the_package_and_the_archive(self):
        self.make()
        self.ran("dpkg-deb", "-R", self.deb, "package")
        with tarfile.open(self.archive) as archive:
            archive.extractall("archive")
            modes = {it.name: it.mode for it in archive}
        folder = "seedlinkd-" + self.version
        files = kit.files_below("package")
        packed = {path: data for path, data in files.items() if not path.startswith("DEBIAN/")}
        unpacked = kit.files_below("archive/" + folder)
        self.assertEqual(unpacked.pop("install"), kit.bytes_of(kit.TREE + "/tools/package/install"))
        self.assertEqual(packed, unpacked)
        # Each folder stands there with its mode, and the configuration names stations that nobody is told of.
        for path in packed:
            at = os.path.dirname(path)
            while at:
                self.assertEqual(modes.get("%s/%s" % (folder, at)), 0o755, at)
                at = os.path.dirname(at)
        self.assertEqual(modes[folder + "/etc/seedlinkd/seedlinkd.toml"], 0o640)
        for path in ["usr/bin/seedlinkd", "etc/seedlinkd/seedlinkd.toml", "usr/share/bash-completion/completions/seedlinkd",
                     "usr/lib/sysusers.d/seedlinkd.conf", DOC + "/COMMANDS.md", DOC + "/OPERATING.md", DOC + "/examples/demo"]:
            self.assertIn(path, packed)
        for unit in glob.glob(os.path.join(kit.TREE, "examples/*.service")):
            text = packed["usr/lib/systemd/system/" + os.path.basename(unit)].decode()
            self.assertRegex(text, r"(?m)^ExecStart=.*(?<![\w/])/usr/bin/seedlinkd ")
            self.assertNotIn("/usr/local/bin", text)
        self.assertEqual(self.ran("package/usr/bin/seedlinkd", "--version"), self.run_program("--version").printed)
        completion = kit.bytes_of(kit.TREE + "/tools/package/completion.bash")
        self.assertEqual(packed["usr/share/bash-completion/completions/seedlinkd"], completion)
        for page in ("man8/seedlinkd.8", "man5/seedlinkd.toml.5"):
            text = gzip.decompress(packed["usr/share/man/%s.gz" % page]).decode()
            self.assertNotRegex(text, r"(?<!\w)docs/[A-Z]+\.md|(?<![\w/])examples/loopback\.toml")
        control = text_of("package/DEBIAN/control")
        for line in ("Package: seedlinkd", "Version: " + self.version, "Architecture: amd64"):
            self.assertIn(line + "\n", control)
        self.assertRegex(control, r"(?m)^Depends: libc6 \(>= 2\.\d+\), ")
        self.assertEqual(text_of("package/DEBIAN/conffiles"), "/etc/seedlinkd/seedlinkd.toml\n")
        sums = dict(reversed(line.split("  ")) for line in text_of("package/DEBIAN/md5sums").splitlines())
        self.assertEqual(sums, {it: hashlib.md5(packed[it]).hexdigest() for it in packed if it.startswith("usr/")})
        self.assertTrue(all(os.stat("package/DEBIAN/" + it).st_mode & stat.S_IXUSR for it in ("postinst", "prerm", "postrm")))
        commit = self.ran("git", "rev-parse", "HEAD", cwd="tree").strip()
        self.assertIn("Built from commit %s." % commit, gzip.decompress(packed[DOC + "/changelog.gz"]).decode())

    @kit.slow
    @kit.limit(120)
    def test_made_again_it_is_the_same_bytes(self):
        self.make()
        first = [kit.bytes_of(it) for it in (self.deb, self.archive)]
        for it in (self.deb, self.archive):
            os.remove(it)
        self.pack()
        self.assertTrue(first == [kit.bytes_of(it) for it in (self.deb, self.archive)])

    def test_the_configuration_of_the_package_can_be_served(self):
        config = kit.TREE + "/tools/package/seedlinkd.toml"
        ended = self.run_program("view", config, "127.0.0.1", "--strict")
        self.assertEqual((ended.status, ended.said), (0, ""))
        server = self.serve(config)
        server.feed(kit.bytes_of(kit.RECORDS))
        ended = self.reader(server, "GE_APE", "--fetch", "--output", "ape").await_end()
        self.assertEqual((ended.status, ended.printed.count("\n"), len(kit.records_in("ape"))), (0, 15, 15))


    @kit.limit(120)
    def test_installed_pages_name_what_is_installed(self):
        self.make()
        self.unpack()
        pages = {path: data.decode() for path, data in kit.files_below(self.folder + "/" + DOC).items() if path.endswith(".md")}
        for name in ("PROFILE", "CONFIGURATION", "COMMANDS", "DIALOGUE", "OPERATING", "STATUS", "MIGRATING", "DEFINITIONS", "CHANGELOG"):
            self.assertIn(name + ".md", pages)
        for page, text in pages.items():
            for target, anchor in re.findall(r"\]\(([^)#\s]*)(?:#([^)\s]+))?\)", text):
                if not target.startswith(("http:", "https:")):
                    path = os.path.normpath(os.path.join(os.path.dirname(page), target)) if target else page
                    self.assertTrue(os.path.exists(os.path.join(self.folder, DOC, path)), "%s names %s" % (page, target))
                    if anchor:
                        titles = re.findall(r"^#+ (.*)$", pages[path], re.M)
                        self.assertIn(anchor, {re.sub(r"[^\w\- ]", "", it.lower()).strip().replace(" ", "-") for it in titles}, page)

    def unpack(self):
        """Unpacks the archive, as somebody with another umask may: `folder` is what comes out."""
        self.ran("tar", "-xzf", self.archive)
        self.folder = os.path.abspath("seedlinkd-" + self.version)

    def install(self, *words):
        """Runs `install` with these words: its status, and what it says."""
        done = kit.ran(self.folder + "/install", *words)
        return done.returncode, (done.stdout + done.stderr).decode()

    @kit.limit(120)
    def test_install(self):
        """Into a folder, over an older version, twice in a row, and away again."""
        self.make()
        self.unpack()
        os.mkdir("root")
        status, said = self.install("root")
        self.assertEqual(status, 0, said)
        packed = kit.files_below(self.folder)
        packed.pop("install")
        installed = kit.files_below("root")
        listed = installed.pop(DOC + "/installed").decode()
        self.assertEqual(listed.split(), sorted(packed))
        self.assertEqual(installed, packed)
        self.assertEqual(os.stat("root/etc/seedlinkd/seedlinkd.toml").st_mode & 0o777, 0o640)
        self.assertEqual(os.stat("root/usr/bin/seedlinkd").st_mode & 0o777, 0o755)
        # Again: nothing is said of a configuration that is the same.
        status, said = self.install("root")
        self.assertEqual((status, "kept" in said), (0, False), said)
        self.assertEqual(kit.files_below("root"), {**installed, DOC + "/installed": listed.encode()})
        # Over an older version, of which a file has gone since, and with a configuration of one's own.
        kit.write("root/usr/bin/seedlinkd", "older")
        kit.write("root/usr/lib/systemd/system/seedlinkd.service", "older")
        kit.write("root/" + DOC + "/GONE.md", "older")
        kit.write("root/" + DOC + "/installed", listed + DOC + "/GONE.md\n")
        kit.write("root/etc/seedlinkd/seedlinkd.toml", "one's own")
        status, said = self.install("root")
        self.assertEqual((status, "kept %s/root/etc/seedlinkd/seedlinkd.toml;" % os.getcwd() in said), (0, True), said)
        after = kit.files_below("root")
        self.assertEqual(after.pop("etc/seedlinkd/seedlinkd.toml"), b"one's own")
        self.assertEqual(after.pop("etc/seedlinkd/seedlinkd.toml.new"), packed["etc/seedlinkd/seedlinkd.toml"])
        self.assertEqual(set(after), set(installed) - {"etc/seedlinkd/seedlinkd.toml"} | {DOC + "/installed"})
        self.assertEqual(after["usr/bin/seedlinkd"], packed["usr/bin/seedlinkd"])
        # Away: the configuration and what others put there stay.
        kit.write("root/usr/bin/another", "another")
        status, said = self.install("--remove", "root")
        self.assertEqual(status, 0, said)
        self.assertEqual(set(kit.files_below("root")), {"usr/bin/another", "etc/seedlinkd/seedlinkd.toml", "etc/seedlinkd/seedlinkd.toml.new"})
        self.assertEqual(self.install("--remove", "root"), (1, "install: nothing that install put there stands below %s/root\n" % os.getcwd()))

    @kit.limit(120)
    def test_nothing_is_installed(self):
        self.make()
        self.unpack()
        os.mkdir("root")
        for words, said in NOT_INSTALLED:
            self.assertEqual(self.install(*words), (1, "install: %s\n" % said))
        kit.write(self.folder + "/usr/bin/seedlinkd", "#!/bin/sh\nexit 127\n")
        needs = "install: the program does not run here: it needs glibc 2.34 or later (Debian 12, Ubuntu 22.04, RHEL 9)\n"
        self.assertEqual(self.install("root"), (1, needs))
        self.assertEqual(kit.files_below("root"), {})
        self.cannot_write()

    def cannot_write(self):
        """Below a folder that can't be written nothing is changed."""
        self.unpack()
        os.mkdir("root/usr")
        for it in (os.getcwd(), os.path.dirname(os.getcwd()), self.folder):
            os.chmod(it, 0o755)
        os.chmod("root/usr", 0o555)
        self.addCleanup(os.chmod, "root/usr", 0o755)
        words = [self.folder + "/install", os.path.abspath("root")]
        if os.geteuid() == 0:
            if not shutil.which("setpriv"):
                self.skipTest("there is no setpriv")
            words = ["setpriv", "--reuid=65534", "--regid=65534", "--clear-groups"] + words
            os.chmod("root", 0o777)
        done = kit.ran(*words)
        self.assertEqual(done.returncode, 1, done)
        self.assertIn(b"can't be written; nothing was changed", done.stderr)
        self.assertEqual(kit.files_below("root"), {})

    @kit.limit(120)
    def test_the_program_of_the_release_is_packed_without_the_toolchain(self):
        folder = kit.TREE + "/releases/"
        if not os.path.exists(folder + "release.txt"):
            self.skipTest("there is no release")
        if dict(line.split(" ", 1) for line in text_of(folder, "release.txt").splitlines())["version"] != self.version:
            self.skipTest("the release is of another version")
        self.make()
        os.remove("tree/crates/seedlinkd/out/seedlinkd")
        os.remove("bin/rt")
        os.remove(self.archive)
        self.ran("tools/package.sh", "--released", cwd="tree")
        self.unpack()
        said = self.ran(self.folder + "/usr/bin/seedlinkd", "--version")
        self.assertTrue(said.startswith("seedlinkd %s (" % self.version), said)


class Release(kit.Test):
    def test_what_is_released_is_that_of_the_sums(self):
        """And its program is of the version that release.txt names."""
        folder = kit.TREE + "/releases/"
        if not os.path.exists(folder + "release.txt"):
            self.skipTest("there is no release")
        sums = [line.split("  ") for line in text_of(folder, "SHA256SUMS").splitlines()]
        self.assertEqual([hashlib.sha256(kit.bytes_of(folder + name)).hexdigest() for _, name in sums], [it for it, _ in sums])
        of_release = dict(line.split(" ", 1) for line in text_of(folder, "release.txt").splitlines())
        made = "seedlinkd_%s_amd64" % of_release["version"]
        # Version 0.2.0 has the archive alone.
        self.assertIn([name for _, name in sums], [[made + ".tar.gz"], [made + ".tar.gz", made + ".deb"]])
        with tarfile.open(folder + sums[0][1]) as archive:
            program = next(it for it in archive.getnames() if it.endswith("usr/bin/seedlinkd"))
            archive.extract(program)
        said = subprocess.run([os.path.abspath(program), "--version"], stdout=subprocess.PIPE, check=True).stdout.decode()
        self.assertTrue(said.startswith("seedlinkd %s (" % of_release["version"]), said)
        self.assertIn(of_release["toolchain"].split()[-1], said)


class BareDebian(Made):
    """The steps are made one after the other, in one folder: `bare` is the root folder of the bare Debian."""

    def inside(self, *words, **how):
        return self.ran("chroot", self.bare, *words, env=self.environment, **how)

    def files(self):
        """All that stands in the bare Debian but what every package's coming and going changes."""
        names = ("proc", "tmp", "var/cache", "var/log", "var/lib/apt", "var/lib/dpkg")
        left_out = [it for name in names for it in ("-path", "./" + name, "-o")]
        words = ["find", ".", "-xdev", "("] + left_out[:-1] + [")", "-prune", "-o", "-print"]
        return set(self.ran(*words, cwd=self.bare).splitlines())

    def path(self, name):
        return os.path.join(self.bare, name)

    @kit.slow
    @kit.limit(1200)
    def test_it_works_in_a_bare_debian(self):
        if os.geteuid() != 0:
            self.skipTest("a bare Debian is made by root alone")
        missing = [it for it in ("debootstrap", "lintian", "unshare") if not shutil.which(it)]
        if missing:
            self.skipTest("there is no %s: apt-get install debootstrap lintian" % ", ".join(missing))
        self.environment = {**os.environ, "LC_ALL": "C", "DEBIAN_FRONTEND": "noninteractive", "TMPDIR": "/tmp"}
        self.make()
        self.check_with_lintian()
        self.make_bare_debian()
        before = self.files()
        self.install()
        self.serve_feed_and_read()
        self.look_at_manual_pages()
        self.upgrade()
        self.remove_and_purge(before)
        self.run_under_systemd()

    def check_with_lintian(self):
        self.ran("lintian", "--allow-root", "--fail-on", "error,warning", "--info", self.deb)
        shown = kit.ran("lintian", "--allow-root", "--show-overrides", self.deb, timeout=120).stdout.decode()
        self.note("overridden: " + "; ".join(re.findall(r"^O: (.*)$", shown, re.M)))

    def make_bare_debian(self):
        self.bare = os.path.abspath("bare")
        # The root folder of the package's user, too, and so are the folders above.
        os.mkdir("bare")
        for it in (os.getcwd(), os.path.dirname(os.getcwd()), "bare"):
            os.chmod(it, 0o755)
        suite = os.environ.get("TRIED_SUITE", "bookworm")
        words = ["debootstrap", "--variant=minbase", "--include=man-db,mandoc,procps,systemd", suite, self.bare]
        done = kit.ran(*words, timeout=600)
        if done.returncode:
            self.skipTest("no bare Debian could be made: " + (done.stdout + done.stderr)[-300:].decode("utf-8", "replace"))
        self.ran("mount", "-t", "proc", "proc", self.path("proc"))
        self.addCleanup(subprocess.run, ["umount", "-l", self.path("proc")], stderr=subprocess.DEVNULL, check=False)
        kit.write(self.path("usr/sbin/policy-rc.d"), "#!/bin/sh\nexit 101\n")
        os.chmod(self.path("usr/sbin/policy-rc.d"), 0o755)

    def install(self):
        shutil.copy(self.deb, self.path("tmp/seedlinkd.deb"))
        self.inside("apt-get", "install", "-y", "--no-install-recommends", "/tmp/seedlinkd.deb")
        self.note("installed: " + self.inside("seedlinkd", "--version").strip())
        self.inside("getent", "passwd", "seedlinkd")

    def serve_feed_and_read(self):
        ports = [kit.free_port(), kit.free_port()]
        clients, feeds = ["%s:%d" % (kit.HERE, it) for it in ports]
        as_user = ["setpriv", "--reuid=seedlinkd", "--regid=seedlinkd", "--clear-groups"]
        words = ["seedlinkd", "serve", "/etc/seedlinkd/seedlinkd.toml", "--listen", clients, "--feed", feeds, "--log"]
        with open("served", "wb") as said:
            server = subprocess.Popen(["chroot", self.bare] + as_user + words, stderr=said)
        try:
            kit.until(lambda: "seedlinkd: serving" in kit.text_of("served"), lambda: "the server: " + kit.text_of("served"))
            user = self.inside("getent", "passwd", str(os.stat("/proc/%d" % server.pid).st_uid)).split(":")[0]
            self.assertEqual(user, "seedlinkd")
            self.inside("seedlinkd", "-v", "feed", feeds, "/usr/share/doc/seedlinkd/examples/records/records.mseed")
            lines = self.inside("seedlinkd", "read", clients, "GE_APE", "--fetch", "--output", "/tmp/ape.mseed").count("\n")
            self.assertEqual((lines, len(kit.records_in(self.path("tmp/ape.mseed")))), (15, 15))
        finally:
            server.kill()
            server.wait()
        self.inside("/usr/share/doc/seedlinkd/examples/demo")
        self.note("served as %s, and read %d records" % (user, lines))

    def look_at_manual_pages(self):
        for page in ("man8/seedlinkd.8", "man5/seedlinkd.toml.5"):
            self.inside("mandoc", "-T", "lint", "/usr/share/man/%s.gz" % page)
            done = subprocess.run(["chroot", self.bare, "man", "--warnings", "-l", "/usr/share/man/%s.gz" % page],
                                  stdout=subprocess.PIPE, stderr=subprocess.PIPE, check=False)
            self.assertEqual((done.returncode, done.stderr), (0, b""))
        pages = "".join(text_of(self.path("%s/%s.md" % (DOC, it))) for it in ("CONFIGURATION", "COMMANDS", "DIALOGUE"))
        cells = re.findall(r"^\| ([^|]*) \|", pages, re.M)
        of_profile = {it for cell in cells for it in re.findall(r"\d+ [A-Z][a-z][A-Za-z0-9]*", cell)}
        manual = gzip.decompress(kit.bytes_of(self.path("usr/share/man/man8/seedlinkd.8.gz"))).decode()
        self.assertEqual(set(re.findall(r"^\.It (\d+ [A-Z][A-Za-z0-9]*)$", manual, re.M)), of_profile)
        self.note("%d faults in the manual page, as in the other pages" % len(of_profile))

    def upgrade(self):
        """To a newer package, with a configuration that was changed."""
        self.inside("sed", "-i", 's/^title = .*/title = "Changed here"/', "/etc/seedlinkd/seedlinkd.toml")
        self.ran("dpkg-deb", "-R", self.deb, "newer")
        control = text_of("newer/DEBIAN/control")
        kit.write("newer/DEBIAN/control", re.sub(r"(?m)^Version: .*", lambda it: it.group() + "+next", control))
        self.ran("dpkg-deb", "--root-owner-group", "--build", "newer", self.path("tmp/newer.deb"))
        self.inside("apt-get", "install", "-y", "--no-install-recommends", "/tmp/newer.deb")
        shown = self.inside("dpkg-query", "-W", "-f", "${Version} ${Status}", "seedlinkd")
        self.assertEqual(shown, self.version + "+next install ok installed")
        self.assertIn('title = "Changed here"\n', text_of(self.path("etc/seedlinkd/seedlinkd.toml")))

    def remove_and_purge(self, before):
        self.inside("apt-get", "remove", "-y", "seedlinkd")
        self.assertEqual(self.inside("dpkg-query", "-W", "-f", "${Status}", "seedlinkd"), "deinstall ok config-files")
        self.assertEqual(os.listdir(self.path("etc/seedlinkd")), ["seedlinkd.toml"])
        self.inside("apt-get", "purge", "-y", "seedlinkd")
        left = {it for it in self.files() - before if not it.startswith("./root")}
        self.note("files left after a purge: %s" % (" ".join(sorted(left)) or "none"))
        self.assertEqual(left, set())
        # The user is left, as Debian leaves them.
        self.inside("getent", "passwd", "seedlinkd")

    def run_under_systemd(self):
        for name, there in ((self.path("tmp/seedlinkd.deb"), "root/seedlinkd.deb"), (self.path("tmp/newer.deb"), "root/newer.deb")):
            shutil.move(name, self.path(there))
        os.remove(self.path("usr/sbin/policy-rc.d"))
        kit.write(self.path("root/units"), UNITS)
        kit.write(self.path("root/boot"), BOOT)
        kit.write(self.path("root/enter"), ENTER)
        kit.write(self.path("etc/systemd/system/units.service"), UNIT)
        wants = self.path("etc/systemd/system/multi-user.target.wants")
        os.makedirs(wants, exist_ok=True)
        os.symlink("../units.service", wants + "/units.service")
        os.mkdir(self.path("old"))
        self.ran("unshare", "--mount", "--propagation", "private", "sh", self.path("root/enter"), self.bare)
        said = kit.text_of(self.path("root/said"))
        for line in said.splitlines():
            self.note("under systemd: " + line)
        for wanted in SAID:
            self.assertRegex(said, "(?m)^" + re.escape(wanted))
        self.assertNotRegex(said, r"(?m)failed$|was not restarted|waited in vain")
        self.assertEqual(said.count("system calls are filtered, no capability"), 2)
