"""Mistakes that users make, and what is said of each: a row for each, so that none is lost. Without -v and not at a terminal a fault is
one line, and nothing else is said."""

import contextlib
import gzip
import os
import subprocess

import kit
import scripted
from kit import ERROR, OK, record

CONFIG = """title = "T"
access = "10.0.0.0/8"
[[station]]
network = "GE"
code = "APE"
description = "d"
capacity = 9
access = "0.0.0.0/0"
"""
ADDRESS = "11 Address\n  cause: a word is no address with a port\n  word: %s\n  allowed: four numbers and a port, as 127.0.0.1:18000; names of hosts and IPv6 "
LIST = "  cause: an entry is no address, network or group; everybody is 0.0.0.0/0, and no name of a host is taken\n  word: %s\n  entry: %s\n"
NO_WANT = "  cause: this can't be asked for in SeedLink\n  word: %s\n  part: %s\n  allowed: "
STATION = "1 to 5 of A to Z and 0 to 9, after _; each WANT is a word, or a line, of its own\n"
NUMBER = "1 to 6 hexadecimal digits, after @; --fetch with --begin needs them, as @0, --end takes none\n"
TIME = "  allowed: a time in UTC, as 2024-02-29, 2024-02-29T00:00:00 (or .0000, four digits) or 2024,2,29,0,0,0\n"
STATE = "53 State\n  cause: the file with the state is not in lines of a network, a station, a number and an end\n  file: %s\n  line: %d\n"
PLAIN = "  file: %s\n  reason: it has to be a plain file\n"
ANY_STATION = "seedlinkd: a feed port answers nothing: --config, or the server's --log, says which stations it has not\n"
SERVE = "serve c.toml --listen HERE:0 --feed HERE:0 --turns 1 "
# What the user did, the words, the status, and what is said with -v, in this order. SERVER, FEEDS and STATUS are the ports of a server
# that has GE APE with two records; FREE is a port at which nobody listens; HTTP, SSH and NOISE are other services.
MISTAKES = [
    # addresses
    ("a name of a host", "read localhost:18000 GE_APE", 1, [ADDRESS % "localhost:18000"]),
    ("IPv6", "read [::1]:18000 GE_APE", 1, [ADDRESS % "[::1]:18000"]),
    ("the address of a page", "status http://127.0.0.1:18002/", 1, [ADDRESS % "http://127.0.0.1:18002/"]),
    ("a list with all", SERVE + "--feed-from all", 1, ["24 Access\n", LIST % ("all", "all")]),
    ("a list of IPv6", SERVE + "--feed-from ::/0", 1, ["24 Access\n", LIST % ("::/0", "::/0")]),
    ("a list with a host", SERVE + "--feed-from 10.0.0.7,pc7", 1, ["24 Access\n", LIST % ("10.0.0.7,pc7", "pc7")]),
    ("a mask of 33", SERVE + "--feed-from 10.0.0.0/33", 1, ["  cause: an entry has no mask of 0 to 32, or of four numbers, after its slash\n"]),
    ("turns that are taken for seconds", SERVE + "--reread 60 --report 90", 0, ["seedlinkd: --reread 60 counts turns: 60s is by time\n", "seedlinkd: --report 90 counts turns: 90s is by time\n"]),
    ("a list that a variable leaves empty", [*SERVE.split(), "--feed-from", ""], 0, ["--feed-from has no entry: nobody is admitted\n"]),
    ("a list of everybody that looks like a network", SERVE + "--feed-from 10.0.0.0/0", 0, ["10.0.0.0/0, --feed-from: everybody is admitted\n"]),
    ("an access of all that stands below the last station", "view below.toml", 0,
     ["seedlinkd: access, station 2 GE WLF: it is the one list; that of all stations stands above the first [[station]]\n"]),
    ("the same when serving", SERVE.replace("c.toml", "below.toml"), 0, ["access, station 2 GE WLF: it is the one list; "]),
    ("an address with zeros before its numbers", SERVE.replace("c.toml", "zeros.toml"), 0,
     ["seedlinkd: access 010.000.000.007: a number that begins with 0 is decimal here, and not octal\n"]),
    ("feeds from everybody", "serve c.toml --listen HERE:0 --feed 0.0.0.0:0 --turns 1", 0, ["without --feed-from everybody may feed at 0.0.0.0:0\n"]),
    ("a status for this machine alone", SERVE + "--status 192.0.2.1:0", 1, ["without --status-from this machine alone may ask at 192.0.2.1:0\n", "46 Listen\n"]),
    ("a network of which there is no such mask", "view c.toml 10.0.0.0/33", 1,
     ["  cause: a word is no address and no network", "  allowed: an address as 10.0.0.7, a network as 10.0.0.0/8 (0 to 32), or the file of "]),
    ("a network without a mask", "view c.toml 10.0.0.0/", 1, ["  allowed: an address as 10.0.0.7, a network as 10.0.0.0/8 (0 to 32), or the file of "]),
    ("a configuration that is a file of records", "view two.mseed", 1, ["20 Toml\n", "  found: bytes that are not UTF-8\n"]),
    ("a station with a point", "view c.toml --station GE.APE", 1, ["32 UnknownStation\n", "  allowed: a network and a code of the configuration, in capitals, as GE_APE\n"]),
    ("a station in small letters", "view c.toml --station ge_ape", 1, ["  allowed: a network and a code of the configuration, in capitals, as GE_APE\n"]),
    # wants and times
    ("two wants in one word", ["read", "FREE", "GE_APE XX_APE"], 1, ["22 Limit\n", NO_WANT % ("GE_APE XX_APE", "station") + STATION]),
    ("two wants with a comma", "read FREE GE_APE,XX_APE", 1, [NO_WANT % ("GE_APE,XX_APE", "station") + STATION]),
    ("two servers with a blank", "read FREE 127.0.0.2:28000 GE_APE", 1,
     ["  cause: a WANT is an address: several servers are one word, with commas between them\n  word: 127.0.0.2:28000\n"]),
    ("a begin of what is held without a number", "read FREE GE_APE --fetch --begin 2024-02-29", 1, [NO_WANT % ("GE_APE", "number") + NUMBER]),
    ("256 wants", ["read", "FREE", "--fetch", "--retry", "1"] + ["GE_APE"] * 256, 1, ["  cause: there are more WANTs than one reader can ask for\n  allowed: 1 to 255 WANTs\n"]),
    ("a fraction of one digit", "read FREE GE_APE@0 --fetch --begin 2024-02-29T00:00:00.5", 1, ["60 Shape\n", TIME]),
    ("now", "read FREE GE_APE@0 --fetch --begin now", 1, ["60 Shape\n", TIME]),
    ("two wants in a line", "read FREE --wants two.wants", 1, ["22 Limit\n", "  file: two.wants\n  line: 1\n  part: station\n"]),
    ("a want with a tab", "read FREE --wants tab.wants", 1, ["22 Limit\n", "  file: tab.wants\n  line: 1\n  part: station\n"]),
    ("wants in the form of slinktool", "read FREE --wants blanks.wants", 1, ["22 Limit\n", "  line: 1\n  part: network\n  allowed: 1 to 2 of A to Z and 0 to 9, before _\n"]),
    ("a file of wants that is empty", "read FREE --wants empty", 1, ["22 Limit\n", "  cause: there is no WANT\n"]),
    ("a file of wants that is not there", "read FREE --wants none", 1, ["44 File\n", "  file: none\n  reason: No such file or directory (os error 2)\n"]),
    ("a time without signs between", "read FREE GE_APE@0 --fetch --begin 20240229T000000Z", 1, ["60 Shape\n", TIME]),
    ("a time in small letters", "read FREE GE_APE@0 --fetch --begin 2024-02-29t00:00:04z", 1, ["60 Shape\n", TIME]),
    ("a comment after a want of a file", "read FREE --wants behind.wants", 1, ["22 Limit\n", "  file: behind.wants\n  line: 2\n  part: station\n"]),
    # files
    ("a state that is a folder", "read FREE GE_APE --state folder", 1, ["53 State\n", PLAIN % "folder"]),
    ("a configuration that is read again and is a device", "serve /dev/null --listen HERE:0 --feed HERE:0 --reread 5s", 1, ["44 File\n", PLAIN % "/dev/null"]),
    ("a state with a line in another form", "read FREE GE_APE --state other.state", 1, ["  file: other.state\n  line: 1\n"]),
    ("a state with a number that is none", "read FREE GE_APE --state number.state", 1, [STATE % ("number.state", 1)]),
    ("a state with CR LF", "read FREE GE_APE --state ends.state", 1, [STATE % ("ends.state", 1)]),
    ("a state with an empty line", "read FREE GE_APE --state line.state", 1, [STATE % ("line.state", 2)]),
    ("a state in a folder that is not there", "read FREE GE_APE --state nowhere/state", 1, ["53 State\n", "  file: nowhere/state\n  reason: No such file or directory (os error 2)\n"]),
    ("an archive that is a file", "read SERVER GE_APE --fetch --archive one.mseed", 1, ["44 File\n", "  file: one.mseed\n  reason: Not a directory (os error 20)\n"]),
    ("a file of numbers that is the configuration", SERVE + "--numbers c.toml", 1, ["49 Numbers\n", "  cause: the file of numbers is not in TOML with "]),
    ("a state without its last line end", "read FREE GE_APE --state cut.state", 1, ["53 State\n", "  file: cut.state\n  line: 1\n"]),
    ("compressed files to check", "check gzs", 0, ["seedlinkd: nothing to check (1 passed over) in gzs\n"]),
    ("standard input twice", "check - -", 0, ["seedlinkd: nothing to check in -\nseedlinkd: nothing to check in -\n"]),
    ("an empty file to check", "check empty", 0, ["seedlinkd: nothing to check in empty\n"]),
    ("an empty folder to check", "check folder", 0, ["seedlinkd: nothing to check in folder\n"]),
    ("a compressed file of less than a record to check", "check small.gz", 1, ["41 Partial\n", "  found: a file compressed by gzip\n"]),
    ("an empty script", "replay c.toml empty", 0, ["seedlinkd: no event to replay in empty\n"]),
    ("a script of comments", "replay c.toml comments.script", 0, ["seedlinkd: no event to replay in comments.script\n"]),
    ("a state in the place of a lock of an archive", "read SERVER GE_APE --fetch --archive folder --state folder/.GE_APE.lock", 1,
     ["53 State\n", "  reason: a name that ends with .lock is that of a lock\n"]),
    ("an output in the place of the lock of another", "read SERVER GE_APE --fetch --output one.lock --state one.state", 1,
     ["53 State\n", "  file: one.lock\n  reason: a name that ends with .lock is that of a lock\n"]),
    # feeds
    ("nothing to feed", "feed FEEDS empty", 0, ["sent 0 records\n"]),
    ("a record after the last one", "feed FEEDS two.mseed --from 100", 0, ["sent 0 records: there is no record 100 in two.mseed\n"]),
    ("records that were compressed, passed over", "feed FEEDS two.gz --skip", 0,
     ["seedlinkd: passed over ", " bytes in no record (a file compressed by gzip), from byte 0 of two.gz on\n", "sent 0 records\n"]),
    ("a compressed file of less than a record to feed", "feed FEEDS small.gz", 1, ["41 Partial\n", "  file: small.gz\n", "  found: a file compressed by gzip\n"]),
    ("a feed at the port for clients", "feed SERVER many.mseed", 1, ["52 BadReply\n", "perhaps this is its port for clients\n"]),
    ("one record", "feed FEEDS one.mseed", 0, ["sent 1 record\n"]),
    ("a few records at the port for clients", "feed SERVER ten.mseed", 1, ["52 BadReply\n", "perhaps this is its port for clients\n"]),
    ("a station that the server has not", "feed FEEDS wlf.mseed", 0, [ANY_STATION, "sent 1 record\n"]),
    ("a file that is named twice", "feed FEEDS two.mseed one.mseed two.mseed", 0, ["seedlinkd: its records were sent twice: two.mseed is named again\n", "sent 5 records\n"]),
    ("a feed at the status port", "feed HTTP many.mseed", 1, ["52 BadReply\n", "  cause: the server answered, which a feed port never does"]),
    ("the words in another order", "feed two.mseed FEEDS", 1, [ADDRESS % "two.mseed"]),
    ("a configuration that is fed", "feed FEEDS c.toml", 1, ["41 Partial\n", "  file: c.toml\n"]),
    ("one byte too many", "feed FEEDS torn.mseed --skip", 0, ["passed over 1 byte in no record, from byte 512 of torn.mseed on\n"]),
    # servers
    ("a web server", "read HTTP GE_APE", 1, ["52 BadReply\n", "  sent: HTTP/1.1 400 Bad Request\n"]),
    ("a secure shell", "read SSH GE_APE", 1, ["52 BadReply\n", "  sent: SSH-2.0-OpenSSH_9.2p1\n"]),
    ("a server that sends no text", "read NOISE GE_APE", 1, ["52 BadReply\n", "  sent: \\x16\\x03\\x01\\x00\\xff~ \\x1b[2J\n"]),
    ("a status that is asked of the port for clients", "status SERVER", 1,
     ["52 BadReply\n", "  cause: the answer is not that of a status port; perhaps this is another port of the server\n"]),
    ("a status that is asked of the port for feeds", "status FEEDS", 1, ["42 Read\n", "  cause: nothing came for ten seconds", "or this is its port for feeds\n"]),
    ("patterns that match nothing", "read SERVER GE_APE:BHX --fetch", 0, ["seedlinkd: nothing came of what was asked for\n"]),
    ("patterns in small letters", "read SERVER GE_APE:bhz --fetch", 0, ["seedlinkd: nothing came of what was asked for\n"]),
    ("a window without records", "read SERVER GE_APE --begin 2099-01-01 --end 2099-01-02 --timeout 1", 0, ["seedlinkd: nothing came of what was asked for\n"]),
    ("nobody at the port", "read FREE GE_APE", 1, ["47 Connect\n", "  reason: Connection refused (os error 111)\n"]),
]
SLOW = ["a status that is asked of the port for feeds"]
# What a server sends to a reader of one station before END and after it, the fault, and all that is said of what it sent.
HELLO, FOUR = b"SeedLink v3.1 (tried)\r\nTried\r\n", b"SeedLink v4.0 (tried) :: SLPROTO:4.0 %sCAP\r\nTried\r\n"
BAD, NONE = "52 BadReply", "10 NotAPacket"
OTHER = "  found: SeedLink 4, where SeedLink 3 is taken\n"
MANY = "  sent: OK\n  found: an answer too many: all commands were answered before\n"
REPLIES = [
    ("no greeting", b"HTTP/1.1 400 Bad Request\r\nServer: none\r\n\r\n", b"", BAD, "  sent: HTTP/1.1 400 Bad Request\n"),
    ("an OK to HELLO", OK + HELLO, b"", BAD, "  sent: OK\n"),
    ("another answer", HELLO + b"FINE\r\n", b"", BAD, "  sent: FINE\n"),
    ("another answer behind an OK", HELLO + OK + b"FINE\r\n", b"", BAD, "  sent: FINE\n"),
    ("an OK with a text", HELLO + b"OK fine\r\n", b"", BAD, "  sent: OK fine\n"),
    ("an OK with LF alone", HELLO + b"OK\n", b"", BAD, "  sent: OK\n  found: an answer that ends with LF, where CR LF is taken\n"),
    ("an OK twice", HELLO + OK + OK + OK, b"", NONE, MANY),
    ("an OK to END", HELLO + OK + OK, OK, NONE, MANY),
    ("a text to END", HELLO + OK + OK, b"FINE\r\n", NONE, "  sent: FINE\n"),
    ("a text behind the last OK", HELLO + OK + OK + b"FINE\r\n", b"", NONE, "  sent: FINE\n"),
    ("SeedLink 4", FOUR % b"" + b"ERROR UNEXPECTED\r\n", b"", BAD, "  sent: ERROR UNEXPECTED\n" + OTHER),
    ("SeedLink 4 that refuses", FOUR % b"" + ERROR, b"", "51 AllRefused", OTHER),
    ("SeedLink 4 and 3", FOUR % b"SLPROTO:3.1 " + b"ERROR UNEXPECTED\r\n", b"", BAD, "  sent: ERROR UNEXPECTED\n"),
    ("SeedLink 4 and 3 that refuses", FOUR % b"SLPROTO:3.1 " + ERROR, b"", "51 AllRefused", ""),
]
# Faults, of each kind of job, and the line that they are without -v and not at a terminal.
ONE_LINE = [
    ("feed: no server", "feed FREE two.mseed", "47 Connect"),
    ("feed: no file", "feed FEEDS none", "44 File"),
    ("feed: an answer", "feed SERVER many.mseed", "52 BadReply"),
    ("feed: a rest", "feed FEEDS rest.mseed", "41 Partial"),
    ("read: no server", "read FREE GE_APE", "47 Connect"),
    ("read: a web server", "read HTTP GE_APE", "52 BadReply"),
    ("read: refused", "read SERVER XX_NONE --fetch", "51 AllRefused"),
    ("read: a want", "read FREE ge_ape", "22 Limit"),
    ("read: to a folder", "read FREE GE_APE --output folder", "44 File"),
    ("check: no file", "check none", "44 File"),
    ("check: a record and a rest", "check rest.mseed --quiet", "41 Partial"),
    ("check: several files", "check two.mseed rest.mseed long.mseed --quiet", "41 Partial"),
    ("check: a folder", "check files --quiet", "6 Length"),
    ("replay: no event", "replay c.toml two.gz", "45 Script"),
    ("replay: no configuration", "replay none none", "44 File"),
]
# Long paths, and what stands in the line all the same.
LONG = "a" * 100 + "/" + "b" * 100
CUT = [
    ("a feed of stations that CONFIG does not have", "feed FEEDS LONG.mseed --config LONG.toml", "sent 3 records, of which 1 would be refused: 32 UnknownStation GE WLF; record 3, byte 1024, of a"),
    ("a feed of long records", "feed FEEDS LONG.long", "sent 8 records, of which no server takes 8: 6 Length, 4096 bytes where 512 are taken; record 1, byte 0, of a"),
    ("a feed that fails", "-v feed SERVER LONG.many", "seedlinkd: sent 69 records, up to record 69 of a"),
    ("sixteen records in a row", "feed FEEDS LONG.torn", "seedlinkd: 16 records in a row are not valid: 1 Sequence; from record 2, byte 512, of a"),
    ("a check of several files", "-v check LONG.long two.mseed", "seedlinkd: 6 Length at record 1 of a"),
    ("a folder in which nothing is left", "check LONG.folder", "seedlinkd: nothing to check (1 passed over) in a"),
]


def saying(data):
    """A service that says that to whoever comes, and takes what is sent."""

    def talk(connection):
        with contextlib.suppress(OSError):
            connection.recv(1024)
            connection.sendall(data)
            while connection.recv(1024):
                pass

    return talk


def long_record():
    """A record that says of itself that it has 4096 bytes."""
    one = bytearray(record(1, "APE"))
    one[54] = 12
    return bytes(one).ljust(4096, b"\0")


def make_files():
    kit.write("c.toml", CONFIG)
    stations = CONFIG.replace('access = "10.0.0.0/8"\n', "").replace('access = "0.0.0.0/0"\n', "")
    below = stations + stations[stations.index("[[") :].replace("APE", "WLF") + 'access = "10.0.0.0/8"\n'
    kit.write("below.toml", below)
    kit.write("zeros.toml", CONFIG.replace('"10.0.0.0/8"', '"010.000.000.007"'))
    kit.write("empty", "")
    kit.write("many.mseed", kit.bytes_of(kit.RECORDS))
    kit.write("one.mseed", record(1, "APE"))
    two = record(1, "APE") + record(2, "APE", start=(2024, 60, 0, 0, 1, 0))
    kit.write("two.mseed", two)
    kit.write("wlf.mseed", record(1, "WLF"))
    kit.write("ten.mseed", record(10, "APE"))
    kit.write("two.gz", gzip.compress(two * 20))
    kit.write("small.gz", gzip.compress(two)[:300])
    kit.write("comments.script", "# nothing\n\n# yet\n")
    kit.write("torn.mseed", two[:512] + b"x" + two[512:])
    kit.write("rest.mseed", two[:700])
    kit.write("long.mseed", long_record())
    kit.write("behind.wants", "GE_APE\nXX_APE # island\n")
    kit.write("two.wants", "GE_APE XX_APE\n")
    kit.write("tab.wants", "GE_APE\tBHZ\n")
    kit.write("blanks.wants", "GE APE BHZ\n")
    kit.write("number.state", "GE APE 00000G 17091648020900\n")
    kit.write("ends.state", "GE APE 000010 17091648020900\r\n")
    kit.write("line.state", "GE APE 000010 17091648020900\n\n")
    kit.write("gzs/one.gz", gzip.compress(two))
    kit.write("other.state", "GE APE 10 2024,02,29,00,00,00\n")
    kit.write("cut.state", "GE APE 000010 17091648020900")
    os.makedirs("folder")
    kit.write("files/a.mseed", long_record())
    kit.write("files/b.mseed", two[:700])


def make_long_files():
    two = record(1, "APE") + record(2, "APE")
    kit.write(LONG + ".mseed", two + record(3, "WLF"))
    kit.write(LONG + ".long", long_record())
    kit.write(LONG + ".many", kit.bytes_of(kit.RECORDS))
    kit.write(LONG + ".torn", two[:512] + b"x" + two * 9)
    kit.write(LONG + ".toml", CONFIG)
    kit.write(LONG + ".folder/one.gz", "")


class Places:
    """What stands for an address in the words of a row."""

    def __init__(self, test):
        self.test, self.found = test, {}

    def other(self, data):
        manager = kit.talking(saying(data))
        address = manager.__enter__()
        self.test.addCleanup(manager.__exit__, None, None, None)
        return address

    def server(self):
        server = self.test.serve(CONFIG)
        server.feed(record(1, "APE"), record(2, "APE", start=(2024, 60, 0, 0, 1, 0)))
        self.found.update(SERVER=server.address, FEEDS=server.feed_address)

    def make(self, name):
        if name in ("SERVER", "FEEDS"):
            self.server()
        elif name == "HTTP":
            self.found[name] = self.other(b"HTTP/1.1 400 Bad Request\r\nServer: none\r\nConnection: close\r\n\r\n")
        elif name == "SSH":
            self.found[name] = self.other(b"SSH-2.0-OpenSSH_9.2p1\r\n")
        elif name == "NOISE":
            self.found[name] = self.other(b"\x16\x03\x01\x00\xff~ \x1b[2J\r\n")
        else:
            self.found[name] = "%s:%d" % (kit.HERE, kit.free_port())

    def words(self, words):
        """The words, with addresses in the places of their names."""
        ready = []
        for word in words if isinstance(words, list) else words.split():
            for name in ("SERVER", "FEEDS", "HTTP", "SSH", "NOISE", "FREE"):
                if word == name:
                    if name not in self.found:
                        self.make(name)
                    word = self.found[name]
            ready.append(word.replace("HERE", kit.HERE).replace("LONG", LONG))
        return ready


@kit.unreleased
class Mistakes(kit.Test):
    def run_row(self, words, status, said):
        make_files()
        self.assert_ends(self.run_program("-v", *Places(self).words(words)), status, *said)

    @kit.rows([row for row in MISTAKES if row[0] not in SLOW])
    def test_it_is_said(self, words, status, said):
        self.run_row(words, status, said)

    @kit.slow
    @kit.rows([row for row in MISTAKES if row[0] in SLOW])
    def test_it_is_said_at_last(self, words, status, said):
        self.run_row(words, status, said)

    @kit.rows(ONE_LINE)
    def test_a_fault_is_one_line(self, words, fault):
        make_files()
        ended = self.run_program(*Places(self).words(words))
        self.assertEqual((ended.status, ended.said), (1, "seedlinkd: %s\n" % fault))

    @kit.rows(CUT)
    def test_a_line_that_is_cut_has_the_fault_and_the_place(self, words, begins):
        make_files()
        make_long_files()
        ended = self.run_program(*Places(self).words(words))
        lines = ended.said.splitlines()
        self.assertTrue(any(line.startswith(begins) for line in lines), ended.said)
        self.assertTrue(all(len(line.encode()) <= 200 for line in lines), ended.said)

    def test_wants_from_standard_input(self):
        make_files()
        server = Places(self).words(["SERVER"])[0]
        done = subprocess.run([kit.PROGRAM, "read", server, "--fetch", "--quiet", "--wants", "-", "--output", "came"],
                              input=b"# two\nGE_APE\r\n", check=False, timeout=kit.PATIENCE)
        self.assertEqual((done.returncode, kit.identities_in("came")), (0, [1, 2]))


@kit.unreleased
class Replies(scripted.Test):
    @kit.rows(REPLIES)
    def test_what_was_sent_is_said(self, before, after, fault, said):
        server = self.scripted(before, after)[0]
        ended = self.run_program("-v", "read", server.address, "GE_APE", "--fetch")
        first, _, lines = ended.said.partition("  address: %s\n" % server.address)
        self.assertIn("seedlinkd: %s\n" % fault, first, ended.said)
        self.assertEqual((ended.status, lines), (1, said), ended.said)

    def test_a_reply_in_two_pieces(self):
        server = self.scripted(HELLO + b"OKAY\r\n", b"", piece=1)[0]
        ended = self.run_program("-v", "read", server.address, "GE_APE", "--fetch")
        self.assertIn("  sent: OKA", ended.said)
