"""The runner of these tests: what it says of bad input, of tests that fail and of programs that are wrong."""

import ast
import glob
import os
import re
import shutil
import subprocess
import sys

import kit

# Words, and what is said in one line. The status is 2.
REFUSED = [
    ("a name of no test", "no_such_test", "no test has 'no_such_test' in its name"),
    ("a name of no wrong program", "--wrong no_such_program", "there is no program no_such_program in tests/wrong"),
    ("no program", "--program none", "can't be run: No such file or directory"),
    ("a program without the right to run", "--program file", "can't be run: Permission denied"),
    ("a file that is no program", "--program text", "can't be run: Exec format error"),
    ("another program", "--program /bin/true", "/bin/true is not the program: it answers --version with "),
    ("a program that slow tests alone notice", "--wrong lists_no_1000th_packet", "slow tests alone notice this: --wrong --all"),
    ("no process", "-j 0", "-j wants a number from 1 on"),
    ("a word that is no number", "-j many", "argument -j: invalid int value: 'many'"),
    ("an unknown option", "--everything", "unrecognized arguments: --everything"),
]


class Run(kit.Test):
    def run_tests(self, *words, **how):
        """How tests/run ends with these words."""
        words = [sys.executable, os.path.join(kit.TREE, "tests/run")] + list(words)
        done = subprocess.run(words, stdout=subprocess.PIPE, stderr=subprocess.PIPE, timeout=50, check=False, **how)
        return kit.Ended(words, done.returncode, done.stdout.decode(), done.stderr.decode())

    @kit.rows(REFUSED)
    def test_refused(self, words, said):
        kit.write("file", "")
        kit.write("text", "no program\n")
        os.chmod("text", 0o755)
        ended = self.run_tests(*words.split())
        lines = [it for it in ended.said.splitlines() if it.startswith("tests/run: ")]
        self.assertEqual((ended.status, ended.printed, len(lines)), (2, "", 1), ended.all())
        self.assertIn(said, lines[0])
        self.assertNotIn("Traceback", ended.said)

    def test_an_old_python_is_told_so(self):
        """What it reads first is Python that each of them can read."""
        with open(os.path.join(kit.TREE, "tests/run"), encoding="ascii") as file:
            text = file.read()
        ast.parse(text, feature_version=(3, 4))
        self.assertNotRegex(text, r"\bprint\b|\bf['\"]|\bnonlocal\b|\bprint\(")
        script = "import sys; sys.version_info = (2, 7, 18); sys.argv = ['run']; exec(compile(open(%r).read(), 'run', 'exec'))"
        done = subprocess.run([sys.executable, "-c", script % file.name], stderr=subprocess.PIPE, check=False)
        self.assertEqual((done.returncode, done.stderr), (2, b"tests/run: Python 3.8 or newer is needed, and this is 2.7\n"))

    def test_a_machine_without_loopback(self):
        alone = ["unshare", "--user", "--map-root-user", "--net"]
        if not shutil.which("unshare") or subprocess.run(alone + ["true"], stderr=subprocess.DEVNULL, check=False).returncode:
            self.skipTest("no network without loopback can be made here")
        words = [sys.executable, os.path.join(kit.TREE, "tests/run"), "words", "--program", kit.PROGRAM]
        done = subprocess.run(alone + words, stdout=subprocess.PIPE, stderr=subprocess.PIPE, check=False)
        said = done.stderr.decode()
        self.assertEqual((done.returncode, done.stdout), (2, b""), said)
        self.assertRegex(said, r"\Atests/run: the tests need IPv4 on loopback, and there is no connection to 127.0.0.1: .*\n\Z")

    def test_each_wrong_program_names_tests(self):
        """And each file of tests is named by one that is no control."""
        ended = self.run_tests("--wrong", "--list")
        self.assertEqual((ended.status, ended.said), (0, ""))
        files, named = set(), set()
        for path in glob.glob(os.path.join(kit.TREE, "tests/test_*.py")):
            files.add(os.path.basename(path)[5:-3])
        for name in ended.printed.split():
            by = re.search(r"^# noticed by: (.*)$", kit.text_of(os.path.join(kit.TREE, "tests/wrong", name)), re.M).group(1).split()
            named |= set() if by[0] == "nobody" else {it.split(".")[0] for it in by}
        self.assertEqual(files - named, set())

    def test_tests_that_pass(self):
        ended = self.run_tests("closed.job__help", "--program", kit.PROGRAM, "-j", "2")
        self.assertEqual((ended.status, ended.said), (0, ""), ended.all())
        self.assertRegex(ended.printed.splitlines()[-1], r"\A\d+ passed, 0 failed\Z")

    def test_a_test_that_fails_is_repeated_by_the_command_that_is_printed(self):
        """A program that answers --version and nothing else fails."""
        kit.write("program", '#!/bin/sh\n[ "$*" != --version ] || echo seedlinkd 0\n')
        os.chmod("program", 0o755)
        ended = self.run_tests("numbers.a_file_that_is_not_there_is_made", "--program", "program")
        self.assertEqual((ended.status, ended.printed.splitlines()[-1]), (1, "0 passed, 1 failed"), ended.all())
        again = re.search(r"^    again: tests/run (.*)$", ended.printed, re.M).group(1)
        self.assertEqual(again, "numbers.a_file_that_is_not_there_is_made --program " + os.path.abspath("program"))
        self.assertEqual(self.run_tests(*again.split()).printed.splitlines()[-1], "0 passed, 1 failed")

    def test_a_test_that_ends_its_process_fails_alone(self):
        """The others are made all the same."""
        tree = self.small_tree()
        kit.write(tree + "/test_it.py", "import os, kit\n\n\nclass It(kit.Test):\n"
                  "    def test_dies(self):\n        os._exit(3)\n\n    def test_lives(self):\n        pass\n\n"
                  "    @kit.limit(1)\n    def test_hangs(self):\n        import time\n        time.sleep(50)\n\n"
                  "    @kit.slow\n    def test_is_slow(self):\n        pass\n")
        ended = self.run_of(tree, "--program", kit.PROGRAM)
        self.assertEqual((ended.status, ended.printed.splitlines()[-1]), (1, "1 passed, 2 failed"), ended.all())
        self.assertIn("FAILED it.dies\n    the process of the test ended\n", ended.printed)
        self.assertRegex(ended.printed, r"(?s)FAILED it\.hangs\n.*TookTooLong: the test took too long\n")
        self.assertEqual(self.run_of(tree, "--program", kit.PROGRAM, "--all", "is_slow").printed.splitlines()[-1], "1 passed, 0 failed")

    def test_a_wrong_program_that_gets_through_and_a_control_that_is_noticed(self):
        """Both fail; a program that is noticed passes."""
        tree = self.small_tree()
        kit.write(tree + "/test_it.py", "import kit\n\n\nclass It(kit.Test):\n"
                  '    def test_version(self):\n        self.assertIn("seedlinkd", self.run_program("--version").printed)\n')
        real, none = 'exec "$TRIED_REAL" "$@"', "exit 1"
        for name, by, script in (("through", "it", real), ("noticed", "it", none), ("control", "nobody it", none), ("right", "nobody", real)):
            kit.write("%s/wrong/%s" % (tree, name), "#!/bin/sh\n# noticed by: %s\n%s\n" % (by, script))
            os.chmod("%s/wrong/%s" % (tree, name), 0o755)
        kit.write(tree + "/wrong/unmade", "#!/bin/sh\n# noticed by: it\n# changes the tree\necho no such text >&2\nexit 1\n")
        os.chmod(tree + "/wrong/unmade", 0o755)
        ended = self.run_of(tree, "--wrong", "--program", kit.PROGRAM)
        self.assertEqual((ended.status, ended.printed.splitlines()[-1]), (1, "2 passed, 3 failed"), ended.all())
        for line in ("unmade: COULD NOT BE MADE: no such text", "through: GOT THROUGH 1 tests", "noticed: noticed by 1 of 1 tests", "control: NOTICED, though it does nothing wrong",
                     "right: not noticed, as it should be, by 1 tests"):
            self.assertIn(line + "\n", ended.printed)

    def small_tree(self):
        """The runner and the kit, in a folder without tests."""
        for name in ("run", "runner.py", "kit.py"):
            kit.write("small/tests/" + name, kit.bytes_of(os.path.join(kit.TREE, "tests", name)))
        os.mkdir("small/tests/wrong")
        return os.path.abspath("small/tests")

    def test_a_port_that_is_taken(self):
        """The server says so, and so does the test."""
        with kit.taken_port() as listener, self.assertRaisesRegex(AssertionError, "a port that is free of `serve .* 46 Listen"):
            self.serve(kit.CENTRE, at=(listener.getsockname()[1], 0))

    def run_of(self, tests, *words):
        done = kit.ran(sys.executable, tests + "/run", *words, timeout=50)
        return kit.Ended(words, done.returncode, done.stdout.decode(), done.stderr.decode())
