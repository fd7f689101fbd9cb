"""What a reader asks, by its words and by the server before, what it lists, and the text in which it keeps how far it is: at servers that
send what they are told to send."""

import contextlib
import resource
import signal
import socket

import kit
import scripted
from kit import record

WLF, APE = record(1), record(2, "APE")
GREETED = b"SeedLink v3\r\n\r\n"
HELLO, END = b"HELLO\r", b"END\r"
TIMES = "--begin 2024-02-29T00:00:00"
# A word, options, and what is asked for it; or the part that is wrong.
WORDS = [
    ("GE_WLF", "--fetch", "FETCH"),
    ("G_W", "--fetch", "FETCH"),
    ("GE_WLF12", "--fetch", "FETCH"),
    ("GE_WLF:BH?", "--fetch", "FETCH"),
    ("GE_WLF:BH?,!E", "--fetch", "FETCH"),
    ("GE_WLF:BH?,!E@0000A3", "--fetch", "FETCH 0000A3"),
    ("GE_WLF@a3", "--fetch", "FETCH 0000A3"),
    ("GE_WLF:00BHZ.D,--LCQ,.T,L", "--fetch", "FETCH"),
    ("GE_WLF:" + ",".join("A%02d" % it for it in range(16)), "--fetch", "FETCH"),
    ("GE_WLF:BH?" + ",!E" * 63, "--fetch", "FETCH"),
    ("GE_APE", "", "DATA"),
    ("GE_APE@a3", "", "DATA 0000A3"),
    ("GE_APE", TIMES, "TIME 2024,02,29,00,00,00"),
    ("GE_APE@a3", TIMES, "DATA 0000A3 2024,02,29,00,00,00"),
    ("GE_APE@a3", TIMES + " --fetch", "FETCH 0000A3 2024,02,29,00,00,00"),
    ("GE_APE", TIMES + " --end 2024,3,1,0,0,0", "TIME 2024,02,29,00,00,00 2024,3,1,0,0,0"),
    ("GE_APE", "--begin 2024-02-29T00:00:02.0900Z", "TIME 2024,02,29,00,00,02"),
    ("GE_APE", "--begin 2024-02-29T12:30", "TIME 2024,02,29,12,30"),
]
WRONG = [
    ("GE_WLF:BH?" + ",!E" * 64, "--fetch", "patterns"),
    ("", "--fetch", "network"),
    ("GE", "--fetch", "station"),
    ("GEWLF", "--fetch", "network"),
    ("GE.APE", "--fetch", "network"),
    ("_WLF", "--fetch", "network"),
    ("GE_", "--fetch", "station"),
    ("GEO_WLF", "--fetch", "network"),
    ("GE_WLFABC", "--fetch", "station"),
    ("ge_WLF", "--fetch", "network"),
    ("GE_wlf", "--fetch", "station"),
    ("GE_WLF_", "--fetch", "station"),
    ("GE_WLF:", "--fetch", "patterns"),
    ("GE_WLF:BH", "--fetch", "patterns"),
    ("GE_WLF:BHZ,", "--fetch", "patterns"),
    ("GE_WLF:BHZ,,EHZ", "--fetch", "patterns"),
    ("GE_WLF:BHZ.Q", "--fetch", "patterns"),
    ("GE_WLF@", "--fetch", "number"),
    ("GE_WLF@0000000", "--fetch", "number"),
    ("GE_WLF@G", "--fetch", "number"),
    ("GE_WLF@1@2", "--fetch", "number"),
    ("GE_WLF:B@G", "--fetch", "patterns"),
    ("ge_wlf:B@G", "--fetch", "network"),
    ("GE_APE", TIMES + " --fetch", "number"),
    ("GE_APE@a3", TIMES + " --end 2024,3,1", "number"),
]


def packets(*all):
    """Packets by their numbers and records."""
    return b"".join(kit.packet(number, one) for number, one in all)


BOTH = GREETED + b"OK\r\n" * 4
CUT, NOT_A_PACKET = "seedlinkd: 42 Read\n", "seedlinkd: 10 NotAPacket\n"
# Two wants, options and a state; of each server what it sends and what it is asked for the two stations; what is said, and the numbers
# and the stations of the packets that are listed.
FOLLOWED = [
    (
        "from now on, and a number", "GE_WLF GE_APE@00000A", None,
        [
            (packets((0xFFFFFF, WLF), (0, WLF)) + b"SL0000", "DATA", "DATA 00000A"),
            (packets((1, WLF), (0xA, APE)), "DATA 000001", "DATA 00000A"),
            (packets((2, WLF)) + b"END", "DATA 000002", "DATA 00000B"),
        ],
        CUT * 2, "FFFFFF WLF, 000000 WLF, 000001 WLF, 00000A APE, 000002 WLF",
    ),
    (
        "a packet that is cut is not counted", "GE_WLF GE_APE@00000A", None,
        [
            (packets((0xFFFFFF, WLF)) + b"SL00000", "DATA", "DATA 00000A"),
            (packets((0, WLF), (0xB, APE), (1, WLF)), "DATA 000000", "DATA 00000A"),
            (b"END", "DATA 000002", "DATA 00000C"),
        ],
        CUT * 2, "FFFFFF WLF, 000000 WLF, 00000B APE, 000001 WLF",
    ),
    (
        "what is held, and something that is no packet", "GE_WLF GE_APE --fetch", None,
        [
            (packets((3, APE)), "FETCH", "FETCH"),
            (packets((7, WLF)) + b"X", "FETCH", "FETCH 000004"),
            (packets((4, APE)) + b"END", "FETCH 000008", "FETCH 000004"),
        ],
        CUT + NOT_A_PACKET, "000003 APE, 000007 WLF, 000004 APE",
    ),
    (
        "from a moment on", "GE_WLF GE_APE --begin 2024,2,29", None,
        [
            (packets((5, WLF)), "TIME 2024,2,29", "TIME 2024,2,29"),
            (b"", "DATA 000006 2024,2,29", "TIME 2024,2,29"),
            (packets((6, WLF)), "DATA 000006 2024,2,29", "TIME 2024,2,29"),
        ],
        CUT * 3, "000005 WLF, 000006 WLF",
    ),
    (
        "a want's number counts for a station without a packet", "GE_WLF GE_APE@00000A", "GE WLF 000000 -\nGE APE 000000 -\n",
        [(packets((1, WLF), (0xA, APE)), "DATA 000001", "DATA 000001")],
        "seedlinkd: gap GE APE 000000 00000A\n" + CUT, "000001 WLF, 00000A APE",
    ),
]
OF_A_DAY = "2024/GE/APE/BHZ.D/GE.APE..BHZ.D.2024.060 163\n"
# Texts of a state. They are written again as they are.
STATES = [
    ("nothing", ""),
    ("a line", "GE APE 00000A 17091648000100\n"),
    ("no end, and one before 1970", "GE APE FFFFFF -\nX A 000000 -1\n"),
    ("the first and the last moment", "A1 B2C3D 0000A3 -9223372036854775808\nGE WLF 000001 9223372036854775807\n"),
    ("lengths of files", "GE APE 00000A 1\n#\n%s- 0\n" % OF_A_DAY),
    ("the greatest length", "#\n- 18446744073709551615\n"),
]
NO_STATES = [
    "\n", "GE APE 00000A 17091648000100", "GE APE 00000a -\n", "GE APE A -\n", "GE APE 00000A\n", "GE APE 00000A - \n",
    "GE  APE 00000A -\n",
    "ge APE 00000A -\n", "GEO APE 00000A -\n", "GE STATIO 00000A -\n", "GE APE 00000A +1\n", "GE APE 00000A 9223372036854775808\n",
    "GE APE 00000A -\n\n", "GE APE 00000A -\nGE WLF 000001 -\nGE APE 00000b -\n", "GE APE 00000A -\n#\n", "#\n- 01\n", "#\n- -1\n",
    "#\n- +1\n",
    "#\n-\n", "#\na b 1\n", "#- 1\n", "#\n- 1", "#\n- 18446744073709551616\n", "#\n- 1\nGE APE 00000A -\n",
]
# The text of a state, and the line that is wrong.
WRONG_LINES = [
    ("\n", 1), ("GE APE 00000A -", 1), ("GE APE 00000A -\n\n", 2), ("GE APE 00000A -\nGE WLF 000001 -\nGE APE 00000b -\n", 3),
    ("GE APE 00000A -\n#\n", 2), ("#\n- 01\n", 2), ("#- 1\n", 1), ("#\n- 1", 2), ("#\n- 1\nGE APE 00000A -\n", 3), ("#\n- 1\n#\n", 3),
    ("#\n- 1\n- 1\n", 3), ("GE APE 00000A -\n#\na 1\nb 2\nab 3\nb 4\nc 5\n", 6),
    ("GE APE 00000A -\nGE APE 00000B -\n#\na 1\na 1\n", 5),
]
LISTED = "FFFFFF GE WLF -- BHZ D 17091648000000 17091648010000 100\n00ABCD unreadable\n"
DATED = "FFFFFF GE WLF -- BHZ D 2024-02-29T00:00:00.0000Z 2024-02-29T00:00:01.0000Z 100\n00ABCD unreadable\n"


class Wants(scripted.Test):
    @kit.rows([("%s %s" % it[:2], *it) for it in WORDS])
    def test_word(self, word, options, action):
        parts = word.split("@")[0].split(":")
        network, station = parts[0].split("_")
        patterns = parts[1].split(",") if len(parts) == 2 else []
        asked = "".join("%s\r" % it for it in ["STATION %s %s" % (station, network)] + ["SELECT %s" % it for it in patterns] + [action])
        server, = self.scripted(GREETED + b"OK\r\n" * (2 + len(patterns)), b"END")
        ended = self.run_program("read", server.address, word, *options.split())
        self.assertEqual(ended.all(), "status 0")
        self.assertEqual(server.commands(), HELLO + asked.encode() + END)

    @kit.unreleased
    @kit.rows([
        ("a day", "2024,3,1", "2024,3,1,23,59,59"),
        ("a date", "2024-03-01", "2024,03,01,23,59,59"),
        ("a minute", "2024-03-01T07:00", "2024,03,01,07,00"),
    ])
    def test_an_end(self, word, asked):
        server, = self.scripted(GREETED + b"OK\r\n" * 2, b"END")
        self.run_program("read", server.address, "GE_APE", "--begin", "2024,2,29", "--end", word)
        self.assertIn(b"TIME 2024,2,29 %s\r" % asked.encode(), server.commands())

    @kit.rows([("%s %s" % it[:2], *it) for it in WRONG])
    def test_wrong_word(self, word, options, part):
        ended = self.run_program("-v", "read", kit.HERE + ":1", word, *options.split())
        self.assert_ends(ended, 1, "seedlinkd: 22 Limit\n", "  part: %s\n" % part)

    def test_the_largest_plan(self):
        """255 stations with 1,024 patterns: a server of these refuses nothing."""
        words = ["GE_S%d:%s" % (it, ",".join(["BH?"] * (8 if it == 0 else 4))) for it in range(255)]
        server, = self.scripted(GREETED + b"OK\r\n" * (255 + 1024 + 255), b"END")
        self.assertEqual(self.run_program("read", server.address, *words, "--fetch").all(), "status 0")
        self.assertEqual(server.commands().count(b"\r"), 1 + 255 + 1024 + 255 + 1)
        station = '[[station]]\nnetwork = "GE"\ncode = "S%d"\ndescription = ""\ncapacity = 1\n'
        real = self.serve('title = "T"\n' + "".join(station % it for it in range(255)))
        self.assertEqual(self.run_program("read", real.address, *words, "--fetch").all(), "status 0")

    @kit.rows(FOLLOWED)
    def test_servers_one_after_the_other(self, words, state, visits, said, listed):
        """Each is asked for what comes after what was read before, and each record is written once."""
        servers = self.scripted(BOTH, *(sent for sent, _, _ in visits))
        if state is not None:
            kit.write("state", state)
        words = words.split() + ["--output", "out"] + (["--state", "state"] if state is not None else [])
        ended = self.run_program("read", ",".join(it.address for it in servers), *words)
        self.assertEqual((ended.said, ended.status), (said, 0 if visits[-1][0].endswith(b"END") else 1))
        wanted = [it.split() for it in listed.split(", ")]
        self.assertEqual([line.split()[:3] for line in ended.printed.splitlines()], [[number, "GE", station] for number, station in wanted])
        self.assertEqual(kit.records_in("out"), [WLF if station == "WLF" else APE for _, station in wanted])
        for server, (_, wlf, ape) in zip(servers, visits):
            self.assertEqual(server.commands().decode(), "HELLO\rSTATION WLF GE\r%s\rSTATION APE GE\r%s\rEND\r" % (wlf, ape))
        if state is not None:
            # The number of GE APE jumps, so all of the file is looked through at the next start.
            self.assertRegex(kit.text_of("state"), r"\AGE WLF 000001 \d+\nGE APE 00000A \d+\n#\n- 0\n\Z")

    @kit.rows([("%d bytes" % it, it, "", LISTED) for it in (1, 7, 520, 70_000)] + [("dates", 520, "--iso", DATED)])
    def test_packets_in_pieces(self, piece, how, lines):
        server, = self.scripted(GREETED + b"OK\r\nOK\r\n", b"SLFFFFFF" + WLF + b"SL00abcd" + bytes(512) + b"END", piece=piece)
        ended = self.run_program("read", server.address, "GE_WLF", "--fetch", "--output", "out", *how.split())
        self.assertEqual(ended.all(), lines + "status 0")
        self.assertEqual(kit.bytes_of("out"), WLF + bytes(512))

    def kept(self, text, *words):
        """What a reader makes of a state, to which nothing comes."""
        kit.write("state", text)
        server, = self.scripted(GREETED + b"OK\r\n" * 2 * len(words), b"END")
        return self.run_program("-v", "read", server.address, *words, "--state", "state")

    @kit.rows(STATES)
    def test_a_state_is_written_as_it_was(self, text):
        self.assertEqual(self.kept(text, "ZZ_Q").all(), "status 0")
        self.assertEqual(kit.text_of("state"), text)

    def test_stations_of_wants_come_first(self):
        """Then those of others that were there, and then the lengths of files."""
        text = "XX B 000001 -\nGE WLF 000002 5\nGE APE 000003 6\n#\n- 7\n"
        self.assertEqual(self.kept(text, "GE_APE", "GE_WLF@000009", "GE_NEW").all(), "status 0")
        self.assertEqual(kit.text_of("state"), "GE APE 000003 6\nGE WLF 000002 5\nXX B 000001 -\n#\n- 7\n")

    @kit.rows([(repr(it), it) for it in NO_STATES])
    def test_no_state(self, text):
        said = self.kept(text, "ZZ_Q").said
        self.assertTrue(said.startswith(
            "seedlinkd: 53 State\n  cause: the file with the state is not in lines of a network, a station, a number and an end\n"
            "  file: state\n"), said)
        self.assertEqual(kit.text_of("state"), text)

    @kit.unreleased
    @kit.rows([(repr(it), it, line) for it, line in WRONG_LINES])
    def test_the_line_of_a_state_that_is_wrong(self, text, line):
        self.assert_ends(self.kept(text, "ZZ_Q"), 1, "seedlinkd: 53 State\n", "  file: state\n  line: %d\n" % line)
        self.assertEqual(kit.text_of("state"), text)


DAY = "2024/GE/APE/BHZ.D/GE.APE..BHZ.D.2024.060"
LINES = "000000 GE APE -- BHZ D 17091648000000 17091648000100 1\n000001 GE APE -- BHZ D 17091648000000 17091648000200 2\n"
ONE, TWO = record(1, "APE", samples=1), record(2, "APE", samples=2)
# What is there before, the words, and what is said.
LEFT = [
    ("no folder for the state", {}, "--state none/state", "seedlinkd: 53 State\n"),
    ("a state that can't be written", {"state.new/file": ""}, "--state state --output out", "seedlinkd: 53 State\n"),
    ("an archive that is a file", {"sds": ""}, "--archive sds -v",
     "seedlinkd: 44 File\n  cause: a file could not be opened\n  file: sds\n  reason: "),
    ("a year that is a file", {"sds/2024": ""}, "--archive sds -v",
     "seedlinkd: 43 Write\n  cause: not everything could be written\n  file: sds/2024/GE/APE/"),
]
# A state by hand, the word, and what is said.
GAPS = [
    ("a number that is not held", "GE_APE", "seedlinkd: gap GE APE 000005 000000\n"),
    ("some records of a station: nothing is missing", "GE_APE:BH?", ""),
]
REFUSED = [
    ("in an archive", "--archive sds", "seedlinkd: refused GE NONE\nseedlinkd: refused ZZ SHUT\n"),
    ("in a file", "--output out", ""),
]


class Kept(scripted.Test):
    """What a reader of two records keeps, and what it says of that."""

    def read(self, *words, name="GE_APE"):
        server = self.serve()
        server.feed(ONE, TWO)
        return self.reader(server, *name.split(), "--fetch", *words).await_end()

    @kit.rows(LEFT)
    def test_nothing_is_read(self, files, words, said):
        for path, text in files.items():
            kit.write(path, text)
        ended = self.read(*words.split())
        self.assertEqual((ended.printed, ended.status), ("", 1))
        self.assertTrue(ended.said.startswith(said) if said.endswith((" ", "/")) else ended.said == said, ended.said)
        self.assertEqual([it for it in kit.files_below(".") if it.endswith(".060") or it == "out" and kit.bytes_of("out")], [])

    def test_where_no_state_can_be_kept_an_archive_is_written_all_the_same(self):
        kit.write("state.new/file", "")
        ended = self.read("--state", "state", "--archive", "sds")
        self.assertEqual((ended.status, ended.said), (1, "seedlinkd: 53 State\n"))
        self.assertEqual(kit.records_in("sds/" + DAY), [ONE, TWO])

    def test_an_output_that_takes_no_more(self):
        """A file has a limit of 700 bytes: the first record is there."""

        def prepare():
            signal.signal(signal.SIGXFSZ, signal.SIG_IGN)
            resource.setrlimit(resource.RLIMIT_FSIZE, (700, 700))

        server = self.serve()
        server.feed(ONE, TWO)
        for words, path in (("--output out", "out"), ("--archive sds", "sds/" + DAY)):
            ended = self.reader(server, "-v", "GE_APE", "--fetch", *words.split(), prepare=prepare).await_end()
            said = "seedlinkd: 43 Write\n  cause: not everything could be written\n  file: %s\n  reason: File too large (os error 27)\n"
            self.assertEqual((ended.status, ended.said), (1, said % path))
            self.assertEqual(kit.bytes_of(path)[:512], ONE)

    def test_a_state_and_an_archive_go_on(self):
        kit.write("state", "GE APE 000000 17091648000100\nXX OLD 0000A3 -\n")
        self.assertEqual(self.read("--state", "state", "--archive", "sds").printed, LINES.splitlines(True)[1])
        self.assertEqual(kit.records_in("sds/" + DAY), [TWO])
        self.assertEqual(kit.text_of("state"), "GE APE 000001 17091648000200\nXX OLD 0000A3 -\n#\n%s 1\n" % DAY)

    @kit.rows(GAPS)
    def test_a_gap_after_a_state(self, name, said):
        kit.write("state", "GE APE 000005 17091648000100\n")
        ended = self.read("--state", "state", name=name)
        self.assertEqual((ended.status, ended.said, ended.printed), (0, said, LINES))

    @kit.rows(REFUSED)
    def test_refused_wants(self, words, said):
        ended = self.read(*words.split(), name="GE_APE GE_NONE ZZ_SHUT")
        self.assertEqual((ended.status, ended.said), (0, said))

    def test_records_without_a_place_are_told_at_once_and_at_the_end(self):
        server = self.serve()
        server.feed(*(record(it, "APE", channel="B/Z") for it in range(2)))
        ended = self.reader(server, "GE_APE", "--fetch", "--archive", "sds").await_end()
        told = "seedlinkd: records without a place in the archive: %d\n"
        self.assertEqual((ended.status, ended.said), (0, told % 1 + told % 2))

    @kit.rows([("a file", "--output out"), ("an archive", "--archive sds")])
    def test_each_record_once_though_servers_end(self, words):
        """Three servers, of which the last does not have the station: the first two end one after the other."""
        servers = [self.serve(), self.serve(), self.serve(kit.CENTRE.replace("APE", "FAR"))]
        for it in servers[:2]:
            it.feed(ONE, TWO)
        three = record(3, "APE", samples=3)
        reader = self.reader(servers, "GE_APE@000000", *words.split(), "--state", "state")
        reader.await_printed("GE APE", 2)
        servers[0].end()
        servers[1].await_said("seedlinkd: open ")
        servers[1].feed(three)
        reader.await_printed("GE APE", 3)
        servers[1].end()
        ended = reader.await_end()
        self.assertEqual(ended.said, "seedlinkd: 42 Read\nseedlinkd: 42 Read\nseedlinkd: refused GE APE\nseedlinkd: 51 AllRefused\n")
        self.assertEqual(ended.printed, LINES + "000002 GE APE -- BHZ D 17091648000000 17091648000300 3\nrefused GE APE\n")
        path = "out" if "out" in words else "sds/" + DAY
        self.assertEqual(kit.records_in(path), [ONE, TWO, three])
        self.assertEqual(kit.text_of("state"), "GE APE 000002 17091648000300\n#\n%s 3\n" % ("-" if "out" in words else DAY))

    def test_a_silent_server_is_left_for_the_next(self):
        server, silent = self.serve(), self.serve()
        for it in (server, silent):
            it.feed(ONE, TWO)
        silent.tell(signal.SIGSTOP)
        ended = self.reader([silent, server], "GE_APE", "--fetch", "--timeout", "1").await_end()
        self.assertEqual(ended.all(), "seedlinkd: 42 Read\n" + LINES + "status 0")


# What a status port sends, and what comes of it.
PLAIN = b"a title\x1b[2J\n\nNET\tSTATION\tSTATE\tAGE\nGE\tAPE\tok\t7\nXX\tW\tok\t1200\n\nN\tHERE\n12\t3\n"
SHOWN = "a title?[2J\n\nNET  STATION  STATE  AGE\nGE   APE      ok     7\nXX   W        ok     1200\n\nN   HERE\n12  3\n"
HEAD = b"HTTP/1.1 %b\r\nContent-Type: text/plain; charset=utf-8\r\nContent-Length: %d\r\nConnection: close\r\n\r\n"
TABLE = b"T\n\nNET\tSTATION\tSTATE\tAGE\n"
SILENT = HEAD % (b"503 Service Unavailable", len(TABLE)) + TABLE
ANSWERS = [
    ("a healthy server", HEAD % (b"200 OK", len(PLAIN)) + PLAIN, SHOWN + "status 0"),
    ("no station", HEAD % (b"200 OK", len(TABLE)) + TABLE, "T\n\nNET  STATION  STATE  AGE\nstatus 0"),
    ("another page", b"HTTP/1.1 404 Not Found\r\nContent-Length: 0\r\n\r\n", "seedlinkd: 52 BadReply\nstatus 1"),
    ("another server", b"ERROR\r\n", "seedlinkd: 52 BadReply\nstatus 1"),
]


class Answers(scripted.Test):
    """What `status` makes of an answer."""

    def answered(self, sent):
        with socket.create_server((kit.HERE, 0)) as listener:
            listener.settimeout(kit.PATIENCE)
            running = self.start("status", "%s:%d" % listener.getsockname())
            connection, _ = listener.accept()
            with contextlib.closing(connection):
                connection.settimeout(kit.PATIENCE)
                asked = b""
                while not asked.endswith(b"\r\n\r\n"):
                    asked += connection.recv(4096)
                connection.sendall(sent)
                connection.shutdown(socket.SHUT_WR)
                return running.await_end()

    @kit.rows(ANSWERS)
    def test_answer(self, sent, wanted):
        self.assertEqual(self.answered(sent).all(), wanted)

    def test_an_answer_is_taken_whole_or_not_at_all(self):
        for count in range(len(SILENT)):
            with self.subTest(count=count):
                self.assertEqual(self.answered(SILENT[:count]).all(), "seedlinkd: 42 Read\nstatus 1")
