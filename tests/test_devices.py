"""Jobs whose input can't be read to its end, and whose output takes nothing."""

import subprocess

import kit

ONE_STATION = 'title = "Centre"\n[[station]]\nnetwork = "GE"\ncode = "APE"\ndescription = "Island"\ncapacity = 9\n'
# Jobs that print something.
PRINTING = [
    "view centre.toml", "view centre.toml 10.0.0.7", "view centre.toml centre.toml", "check two.mseed", "check --gaps --summary RECORDS",
    "replay centre.toml script", "replay --text centre.toml script",
]


class Devices(kit.Test):
    @kit.rows([(it, it) for it in PRINTING])
    def test_an_output_that_takes_nothing(self, words):
        kit.write("centre.toml", ONE_STATION)
        kit.write("two.mseed", b"0" * 1024)
        kit.write("script", "open 10.0.0.7\ntake 0 9\n")
        with open("/dev/full", "wb") as full:
            words = [kit.PROGRAM] + words.replace("RECORDS", kit.RECORDS).split()
            done = subprocess.run(words, stdout=full, stderr=subprocess.PIPE, timeout=kit.PATIENCE, check=False)
        self.assertEqual((done.returncode, done.stderr), (1, b"seedlinkd: 43 Write\n"))

    @kit.rows([("view", "view FILE"), ("replay, the configuration", "replay FILE script"),
        ("replay, the script", "replay centre.toml FILE"), ("check", "check FILE")])
    def test_an_input_that_fails(self, words):
        """The program's own memory is a file whose first byte can't be read."""
        kit.write("centre.toml", ONE_STATION)
        ended = self.run_program("-v", *words.replace("FILE", "/proc/self/mem").split())
        self.assertEqual((ended.status, ended.printed), (1, ""))
        reason = r"reason: Input/output error \(os error 5\)\n\Z"
        self.assertRegex(ended.said, r"\Aseedlinkd: 4[24] (Read|File)\n  cause: .*\n  file: /proc/self/mem\n  " + reason)
