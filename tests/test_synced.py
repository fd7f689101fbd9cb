"""What is put on the disk before a state says that it is there: by the system's calls that a reader makes, as strace shows them."""

import os
import re
import shutil

import kit
from kit import record

CONFIG = 'title = "Tried"\n[[station]]\nnetwork = "GE"\ncode = "WLF"\ndescription = "tried"\ncapacity = 64\n'
CALL = re.compile(r"^\d+ +(\w+)\((.*)\) += (-?\d+)")


@kit.unreleased
class Synced(kit.Test):
    """Each test looks at the calls of a reader of three records: their names, what they were handed, and the descriptor they gave."""

    def setUp(self):
        super().setUp()
        if shutil.which("strace") is None:
            self.skipTest("there is no strace")

    def calls(self, *words):
        server = self.serve(CONFIG)
        server.feed(*map(record, range(3)))
        traced = ["strace", "-f", "-y", "-s", "300", "-o", "calls", "-e", "trace=mkdir,mkdirat,fsync,fdatasync,rename,renameat,renameat2,openat,open"]
        ended = kit.ran(*traced, kit.PROGRAM, "read", server.address, "GE_WLF", "--fetch", "--state", "state", *words)
        if b"ptrace" in ended.stderr or b"PTRACE" in ended.stderr:
            self.skipTest("strace may not look at a program here")
        self.assertEqual(ended.returncode, 0, ended.stderr)
        return ended, [CALL.match(line).groups() for line in kit.text_of("calls").splitlines() if CALL.match(line)]

    def paths_synced(self, calls):
        """The paths that were synced before the last time that the state took its place."""
        renamed = max(at for at, (name, words, _) in enumerate(calls) if name.startswith("rename") and "state" in words)
        return [re.search(r"<(.*)>", words).group(1) for name, words, _ in calls[:renamed] if name in ("fsync", "fdatasync")]

    def test_all_folders_that_were_made_are_synced(self):
        _, calls = self.calls("--archive", "top/archive")
        made = [re.search(r'"(.*?)"', words).group(1) for name, words, given in calls if name.startswith("mkdir") and given == "0"]
        self.assertEqual(sorted(made), sorted(["top", "top/archive"] + [
            "top/archive/" + it for it in ("2024", "2024/GE", "2024/GE/WLF", "2024/GE/WLF/BHZ.D")]))
        synced = self.paths_synced(calls)
        for path in made:
            self.assertIn(os.path.dirname(os.path.abspath(path)), synced, path)
        day = os.path.abspath("top/archive/2024/GE/WLF/BHZ.D/GE.WLF..BHZ.D.2024.060")
        self.assertIn(day, synced)
        self.assertIn(os.path.dirname(day), synced)

    def test_one_file_is_synced(self):
        _, calls = self.calls("--output", "records")
        self.assertIn(os.path.abspath("records"), self.paths_synced(calls))

    def test_the_file_of_the_standard_output_is_synced(self):
        server = self.serve(CONFIG)
        server.feed(*map(record, range(3)))
        command = "exec strace -f -y -o calls -e trace=fsync,fdatasync,rename,renameat,renameat2 %s read %s GE_WLF --fetch --state state --output - >records"
        ended = kit.ran("sh", "-c", command % (kit.PROGRAM, server.address))
        if b"ptrace" in ended.stderr.lower():
            self.skipTest("strace may not look at a program here")
        self.assertEqual(ended.returncode, 0, ended.stderr)
        self.assertEqual(kit.identities_in("records"), [0, 1, 2])
        calls = [CALL.match(line).groups() for line in kit.text_of("calls").splitlines() if CALL.match(line)]
        self.assertIn(os.path.abspath("records"), self.paths_synced(calls))
