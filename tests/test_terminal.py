"""What is said at a terminal alone: explanations, colours, how far a job is, and where a server serves."""

import contextlib
import os
import pty
import socket
import subprocess

import kit
from kit import record

BOLD = "\x1b[1mseedlinkd: 44 File\x1b[0m"
# The variables of a terminal, and whether it is written to in colours.
TERMINALS = [
    ("a terminal with colours", {"TERM": "xterm-256color"}, True),
    ("one that NO_COLOR names no text for", {"TERM": "xterm", "NO_COLOR": ""}, True),
    ("NO_COLOR", {"TERM": "xterm", "NO_COLOR": "1"}, False),
    ("a dumb terminal", {"TERM": "dumb"}, False),
    ("no name of a terminal", {"TERM": ""}, False),
]
# What a server answers that is asked for its tables, of which one has a silent station.
TABLES = b"a is silent\nv\nstations ok 1, waiting 0, silent 1\n\nNET\tSTATION\tSTATE\tAGE s\nGE\tAPE\tsilent\t1\nXX\tAPE\tok\t1\n"
TABLES += b"\nNUMBER\tHERE s\n17\t1\n"
SHOWN = "a is silent\nv\nstations ok 1, waiting 0, silent 1\n\nNET  STATION  STATE   AGE s\nGE   APE      %s  1\nXX   APE      ok      1\n\nNUMBER  HERE s\n17      1\n"


class AtTerminal:
    """The program with these words and these variables, whose standard error and perhaps standard output are a terminal."""

    def __init__(self, *words, variables=None, is_output=False):
        self.master, end = pty.openpty()
        environment = {key: value for key, value in os.environ.items() if key not in ("TERM", "NO_COLOR")}
        environment.update(variables or {"TERM": "xterm"})
        self.output = None if is_output else open(".terminal.out", "wb")
        self.process = subprocess.Popen([kit.PROGRAM, *words], stdin=subprocess.DEVNULL, stdout=end if is_output else self.output,
                                        stderr=end, env=environment)
        os.close(end)
        self.came = b""

    def read(self):
        """What is there by now, or nothing at the end."""
        with contextlib.suppress(OSError):
            piece = os.read(self.master, 65_536)
            self.came += piece
            return piece
        return b""

    def await_text(self, wanted):
        while wanted not in self.text():
            if not self.read():
                raise AssertionError("%r ended without %r" % (self.text(), wanted))

    def text(self):
        return self.came.decode("utf-8", "replace").replace("\r\n", "\n")

    def end(self):
        """Waits for its end. The status, and what was written to the terminal."""
        while self.read():
            pass
        status = self.process.wait(kit.PATIENCE)
        self.close()
        return status, self.text()

    def close(self):
        if self.process.poll() is None:
            self.process.kill()
            self.process.wait()
        with contextlib.suppress(OSError):
            os.close(self.master)
        if self.output:
            self.output.close()


def answered(connection):
    with contextlib.suppress(OSError):
        connection.recv(4096)
        connection.sendall(b"HTTP/1.1 503 Silent\r\nContent-Length: %d\r\n\r\n" % len(TABLES) + TABLES)
        connection.shutdown(socket.SHUT_WR)


@kit.unreleased
class Terminal(kit.Test):
    def at_terminal(self, *words, **how):
        terminal = AtTerminal(*words, **how)
        self.addCleanup(terminal.close)
        return terminal

    def ends(self, *words, **how):
        return self.at_terminal(*words, **how).end()

    @kit.rows(TERMINALS)
    def test_a_fault(self, variables, is_bold):
        """It is explained, and bold if the terminal has colours."""
        status, text = self.ends("check", "none", variables=variables)
        self.assertEqual(status, 1)
        self.assertIn("\n  cause: a file could not be opened\n", text)
        self.assertEqual(BOLD in text, is_bold, text)
        self.assertEqual("\x1b[1m" in text, is_bold, text)

    def test_no_colours_elsewhere(self):
        """Not in a pipe or a file, whatever TERM says."""
        done = kit.ran(kit.PROGRAM, "-v", "check", "none", env={**os.environ, "TERM": "xterm"})
        self.assertNotIn(b"\x1b", done.stderr)
        with kit.talking(answered) as address:
            done = kit.ran(kit.PROGRAM, "status", address, env={**os.environ, "TERM": "xterm"})
        self.assertEqual((done.returncode, done.stdout.decode()), (3, SHOWN % "silent"))

    @kit.rows(TERMINALS)
    def test_a_silent_station(self, variables, is_red):
        """It is red if the terminal has colours."""
        with kit.talking(answered) as address:
            status, text = self.ends("status", address, variables=variables, is_output=True)
        self.assertEqual((status, text), (3, SHOWN % ("\x1b[31msilent\x1b[0m" if is_red else "silent")))

    def test_how_far_a_feed_is(self):
        server = self.serve()
        kit.write("fed", b"".join(record(it) for it in range(1000)))
        status, text = self.ends("feed", server.feed_address, "fed")
        self.assertEqual(status, 0)
        self.assertRegex(text, r"\r\d+ records?, \d+ of 512000 bytes, \d+ %, \d+ records/s\x1b\[K")
        self.assertRegex(text, r"\r\x1b\[Kseedlinkd: a feed port answers nothing: [^\n]*\nsent 1000 records\n\Z")

    def test_how_far_a_check_is(self):
        kit.write("checked", b"".join(record(it) for it in range(1000)))
        status, text = self.ends("check", "checked", "--quiet")
        self.assertEqual(status, 0)
        self.assertRegex(text, r"\r\d+ records?, \d+ of 512000 bytes, \d+ %, \d+ records/s\x1b\[K")
        self.assertTrue(text.endswith("\r\x1b[K"), text)

    @kit.rows([("an archive", ("--archive", "sds"), True), ("a file", ("--output", "came"), True), ("lines", (), False)])
    def test_how_far_a_reading_is(self, words, is_shown):
        server = self.serve()
        server.feed(*(record(it) for it in range(150)))
        status, text = self.ends("read", server.address, "GE_WLF", "--fetch", "--quiet", *words)
        self.assertEqual(status, 0)
        shown = r"\r\d+ records?, \d+ bytes, \d+ records/s\x1b\[K"
        if is_shown:
            self.assertRegex(text, shown)
            self.assertTrue(text.endswith("\r\x1b[K"), text)
        else:
            self.assertNotRegex(text, shown)

    def test_nothing_of_that_where_lines_show_it(self):
        server = self.serve()
        server.feed(*(record(it) for it in range(150)))
        status, text = self.ends("read", server.address, "GE_WLF", "--fetch", "--archive", "sds", is_output=True)
        self.assertEqual((status, text.count("GE WLF"), text.count("records/s")), (0, 150, 0))

    def test_a_server_says_where_it_serves(self):
        kit.write("c.toml", kit.CENTRE)
        terminal = self.at_terminal("serve", "c.toml", "--listen", kit.HERE + ":0", "--feed", kit.HERE + ":0")
        terminal.await_text("\n")
        self.assertRegex(terminal.text(), r"^seedlinkd: serving 3 stations, 2 open to everybody, at [\d.]+:[1-9]\d*, feeds at [\d.]+:[1-9]\d*\n$")

    def test_it_says_nothing_elsewhere(self):
        kit.write("c.toml", kit.CENTRE)
        ended = self.run_program("serve", "c.toml", "--listen", kit.HERE + ":0", "--feed", kit.HERE + ":0", "--turns", "1")
        self.assertEqual(ended.all(), "status 0")

    def test_records_are_not_written_to_a_terminal(self):
        server = self.serve()
        server.feed(record(1))
        status, text = self.ends("read", server.address, "GE_WLF", "--fetch", "--output", "-", is_output=True)
        self.assertEqual(status, 1)
        self.assertIn("seedlinkd: 43 Write", text)
        self.assertIn("  cause: records are bytes that a terminal doesn't show: name a file, or lead the output into one\n", text)
