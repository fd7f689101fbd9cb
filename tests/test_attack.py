"""The edits that are tried before a release: which lines of attack/refused.txt are older than what they stand on, and that a release
refuses these. The prover is not needed: a script in its place says which logic it has."""

import os
import shutil
import subprocess

import kit

RELEASE = "0.9.0"
LOGIC = "aaaa"
# A repository with two crates, of which the upper one stands on the lower one.
FILES = {
    "crates.txt": "# from the lowest layer up\nlower:\nupper: lower\naside:\ncommand_line:\n",
    "HANDLES": "",
    "CHANGELOG.md": "# Changes\n\n## %s\n" % RELEASE,
    "crates/lower/src/lib.rt": "1\n",
    "crates/upper/src/lib.rt": "2\n",
    "crates/upper/README.md": "# `upper`\n",
    "crates/upper/must-fail/gate.edit": "old: 2\n",
    "crates/aside/src/lib.rt": "3\n",
    "crates/command_line/src/commands.rt": 'pub const VERSION: &str = "%s (each function proved)";\n' % RELEASE,
    "attack/lower/edit.edit": "old: 1\n",
    "attack/upper/edit.edit": "old: 2\n",
    "attack/refused.txt": "",
}
# A file that changes, and the crates whose lines are older then.
CHANGED = [
    ("the lower crate", "crates/lower/src/lib.rt", ["lower", "upper"]),
    ("the upper crate", "crates/upper/src/lib.rt", ["upper"]),
    ("a new file", "crates/upper/proofs/New.antt", ["upper"]),
    ("an edit", "attack/lower/edit.edit", ["lower"]),
    ("a new edit", "attack/upper/another.edit", ["upper"]),
    ("the handles", "HANDLES", ["lower", "upper"]),
    ("a page", "crates/upper/README.md", []),
    ("an edit of the gate", "crates/upper/must-fail/gate.edit", []),
    ("another crate", "crates/aside/src/lib.rt", []),
]


class Tree(kit.Test):
    """A small repository, with the scripts of this one."""

    def setUp(self):
        super().setUp()
        if not shutil.which("git"):
            self.skipTest("there is no git")
        for path, text in FILES.items():
            kit.write("tree/" + path, text)
        for name in ("attack.sh", "release.sh"):
            kit.write("tree/tools/" + name, kit.bytes_of(os.path.join(kit.TREE, "tools", name)))
            os.chmod("tree/tools/" + name, 0o755)
        kit.write("bin/rt", "#!/bin/sh\necho \"$*\" >>%s\n[ \"$1\" = version ] && echo kit logic %s\n" % (os.path.abspath("called"), LOGIC))
        os.chmod("bin/rt", 0o755)
        self.git("init", "-q")
        for crate in ("lower", "upper"):
            self.write_line(crate)
        self.commit()

    def ran(self, *words):
        return kit.ran(*words, cwd="tree", env={**os.environ, "PATH": os.path.abspath("bin") + ":" + os.environ["PATH"]})

    def git(self, *words):
        who = ["-c", "user.name=Tests", "-c", "user.email=tests@example.org"]
        done = self.ran("git", *who, *words)
        self.assertEqual(done.returncode, 0, done.stderr)

    def commit(self):
        self.git("add", "-A")
        self.git("commit", "-qm", "a commit")

    def old(self):
        """The crates whose lines are older than their files."""
        done = self.ran("tools/attack.sh", "--old")
        self.assertEqual((done.returncode, done.stderr), (0, b""))
        return done.stdout.decode().split()

    def write_line(self, crate):
        """Writes a crate's line as a run would that is made by hand: its sum is the one with which it isn't old."""
        lines = [it for it in kit.text_of("tree/attack/refused.txt").splitlines() if not it.startswith(crate + " ")]
        kit.write("tree/attack/refused.txt", "".join(it + "\n" for it in lines + ["%s 1 %s" % (crate, self.sum_of(crate))]))

    def sum_of(self, crate):
        """What the script sums up, written a second time."""
        below = {"upper": ["lower", "upper"], "lower": ["lower"]}[crate]
        lines = [it for it in reversed(kit.text_of("tree/crates.txt").splitlines()) if it.split(":")[0] in below]
        text = LOGIC + "\n" + "\n".join(lines) + "\n" + kit.text_of("tree/HANDLES")
        for name in [it.split(":")[0] for it in lines]:
            for path in self.files_in("tree/crates/" + name):
                if path.split("/")[0] in ("src", "specs", "proofs"):
                    text += self.summed("tree/crates/%s/%s" % (name, path), "crates/%s/%s" % (name, path))
        for path in self.files_in("tree/attack/" + crate):
            text += self.summed("tree/attack/%s/%s" % (crate, path), "crates/%s/must-fail/%s" % (crate, path))
        return subprocess.run(["sha256sum"], input=text.encode(), stdout=subprocess.PIPE, check=True).stdout.split()[0].decode()

    def files_in(self, folder):
        return sorted(kit.files_below(folder))

    def summed(self, path, name):
        return subprocess.run(["sha256sum", path], stdout=subprocess.PIPE, check=True).stdout.split()[0].decode() + "  " + name + "\n"

    @kit.rows(CHANGED)
    def test_lines_are_older_once_this_changes(self, path, crates):
        self.assertEqual(self.old(), [])
        kit.write("tree/" + path, kit.text_of("tree/" + path) + "more\n")
        self.assertEqual(self.old(), crates)

    def test_lines_are_older_with_another_logic(self):
        kit.write("bin/rt", "#!/bin/sh\necho kit logic bbbb\n")
        self.assertEqual(self.old(), ["lower", "upper"])

    def test_a_release_is_refused_before_it_begins(self):
        kit.write("tree/crates/upper/src/lib.rt", "4\n")
        self.commit()
        done = self.ran("tools/release.sh", RELEASE)
        said = "release: lines of attack/refused.txt are older than their files; tools/attack.sh tries these crates again: upper\n"
        self.assertEqual((done.returncode, done.stderr.decode()), (1, said))
        self.assertNotIn("ci", kit.text_of("called").split())

    def test_a_release_goes_on_to_the_gate(self):
        done = self.ran("tools/release.sh", RELEASE)
        self.assertEqual((done.returncode, done.stderr.decode()), (1, "release: the gate did not pass\n"))
        self.assertIn("ci", kit.text_of("called").split())


class Lines(kit.Test):
    def test_lines_that_are_older_than_their_files(self):
        """They are noted alone: a release refuses them."""
        if not shutil.which("rt"):
            self.skipTest("rt is not on the path")
        if not shutil.which("git") or kit.ran("git", "ls-files", "--error-unmatch", "crates.txt", cwd=kit.TREE).returncode:
            self.skipTest("git can't read the repository here")
        done = kit.ran(os.path.join(kit.TREE, "tools/attack.sh"), "--old")
        self.assertEqual((done.returncode, done.stderr), (0, b""))
        for crate in done.stdout.decode().split():
            self.note("the line of %s in attack/refused.txt is older than its files: tools/attack.sh %s" % (crate, crate))
