"""A server whose polls fail. A failing poll can't be had from outside but by strace, which has the system refuse the call."""

import os
import shutil
import subprocess

import kit

# How often the configuration is read again, and how a server of 60 turns ends. Sixteen polls that fail in a row end it; each reading
# begins the count anew, so fifteen between two readings end nothing.
READINGS = (("20 turns", "20", 1, "seedlinkd: 40 Poll\n"), ("15 turns", "15", 0, ""))


class Polls(kit.Test):
    @kit.rows(READINGS)
    def test_sixteen_polls_that_fail_end_a_server(self, turns, status, said):
        if not shutil.which("strace") or subprocess.run(["strace", "-qq", "-o", os.devnull, "true"], check=False).returncode:
            self.skipTest("strace is missing, or may not look at programs")
        config = kit.write("centre.toml", kit.CENTRE)
        nowhere = kit.HERE + ":0"
        words = ["serve", config, "--listen", nowhere, "--feed", nowhere, "--turns", "60", "--reread", turns]
        traced = ["strace", "-f", "-qq", "-o", os.devnull, "-e", "trace=epoll_wait", "-e", "inject=epoll_wait:error=EBADF"]
        ended = subprocess.run(traced + [kit.PROGRAM] + words, stderr=subprocess.PIPE, timeout=kit.PATIENCE, check=False)
        self.assertEqual((ended.returncode, ended.stderr.decode()), (status, said))
