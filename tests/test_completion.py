"""The completion of bash: what it offers after words of a command line. The program says what there is, by --help."""

import os
import re
import shlex
import shutil
import subprocess

import kit

FILES = "island.toml records.mseed"
# The words so far, of which the last is completed, and what is offered. Bash cuts words at : and =.
OFFERED = [
    (["ser"], "serve"),
    (["c"], "check"),
    (["--vers"], "--version"),
    (["--help", ""], "faults"),
    (["check", "--help", ""], ""),
    (["serve", ""], FILES),
    (["serve", "i"], "island.toml"),
    (["serve", "island.toml", "--re"], "--report --reread"),
    (["serve", "island.toml", "--listen", ""], ""),
    (["serve", "island.toml", "--listen", "127.0.0.1", ":", "18000", "--numbers", ""], FILES),
    (["serve", "--numbers", "=", "r"], "records.mseed"),
    (["serve", "island.toml", "--log", ""], ""),
    (["feed", ""], ""),
    (["feed", "127.0.0.1", ":", "18001", "r"], "records.mseed"),
    (["feed", "127.0.0.1", ":", "18001", "records.mseed", ""], FILES),
    (["check", "--iso", "records.mseed", ""], FILES),
    (["replay", "island.toml", "--t"], "--text"),
    (["replay", "island.toml", "i"], "island.toml"),
    (["replay", "island.toml", "island.toml", ""], ""),
    (["view", "island.toml", ""], FILES),
    (["read", "127.0.0.1", ":", "18000", "GE_APE", ""], ""),
    (["read", "--state", "i"], "island.toml"),
]


class Completion(kit.Test):
    def setUp(self):
        super().setUp()
        if not shutil.which("bash"):
            self.skipTest("there is no bash")
        for name in FILES.split():
            kit.write(name, "")

    def offered(self, words):
        """What is offered for the last of these words, sorted."""
        script = "\n".join([
            ". %s" % shlex.quote(os.path.join(kit.TREE, "tools/package/completion.bash")),
            "COMP_WORDS=(%s)" % " ".join(map(shlex.quote, [kit.PROGRAM] + words)),
            "COMP_CWORD=%d" % len(words),
            "_seedlinkd",
            "printf '%s\\n' \"${COMPREPLY[@]}\"",
        ])
        done = subprocess.run(["bash", "-c", script], stdout=subprocess.PIPE, stderr=subprocess.PIPE, timeout=kit.PATIENCE, check=False)
        self.assertEqual(done.stderr, b"")
        return sorted(done.stdout.decode().split())

    @kit.rows([(" ".join(words), words, wanted.split()) for words, wanted in OFFERED])
    def test_offers(self, words, wanted):
        self.assertEqual(self.offered(words), sorted(wanted))

    @kit.rows([(it, it) for it in ("check", "replay", "view", "serve", "feed", "read", "status")])
    def test_each_option_of(self, command):
        options = re.findall(r"^ +(?:-., )?(--[a-z-]+)", self.run_program(command, "--help").printed, re.M)
        self.assertTrue(options)
        self.assertEqual(self.offered([command, "--"]), sorted(options))
