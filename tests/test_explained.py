"""What is explained with -v: faults of words, of configurations and what differs in them, of scripts and of records. Each to the byte."""

import kit
from kit import record

NO_SERVER = (
    "47 Connect\n  cause: no connection to the server could be made\n  address: 127.0.0.1:1\n"
    "  reason: Connection refused (os error 111)\n"
)
NO_FILE = "44 File\n  cause: a file could not be opened\n  file: none/at.all\n  reason: No such file or directory (os error 2)\n"
NO_WANT = "22 Limit\n  cause: this can't be asked for in SeedLink\n  word: "
CLASH = "22 Limit\n  cause: a WANT would narrow or move what an earlier one of its station asks for\n  word: "
CLASH_ALLOWED = "\n  part: station\n  allowed: WANTs of one station that have the same number or none, and of which each adds patterns\n"
TIMES = "\n  allowed: a time in UTC, as 2024-02-29, 2024-02-29T00:00:00 (or .0000, four digits) or 2024,2,29,0,0,0\n"
LISTS = "  allowed: addresses and masks, separated by spaces and commas, as 10.0.0.7, 10.0.0.0/8\n"
READ = "read|127.0.0.1:1|"
# Words with | between them, and the last lines that are said.
WORDS = [
    ("no file to check", "check|none/at.all", NO_FILE),
    ("no configuration", "replay|none/at.all|nor.this", NO_FILE),
    ("a folder", "replay|/|nor.this", "44 File\n  cause: a file could not be opened\n  file: /\n  reason: Is a directory (os error 21)\n"),
    ("a want's network", READ + "GE_WLF|GE.APE|--fetch",
     NO_WANT + "GE.APE\n  part: network\n  allowed: 1 to 2 of A to Z and 0 to 9, before _\n"),
    ("a want's patterns", READ + "GE_WLF|GE_WLF:B?|--fetch",
     NO_WANT + "GE_WLF:B?\n  part: patterns\n  allowed: 1 to 64 patterns joined by commas, as BH?, 00BHZ.D or !E, after :\n"),
    ("a want that widens", READ + "GE_APE:BH?|GE_APE|--fetch|--archive=archive", CLASH + "GE_APE" + CLASH_ALLOWED),
    ("a want that refuses", READ + "GE_APE:BH?|GE_APE:LH?,!E|--fetch|--archive=archive", CLASH + "GE_APE:LH?,!E" + CLASH_ALLOWED),
    ("a want that moves", READ + "GE_APE:BH?|GE_APE:LH?@10|--fetch|--archive=archive", CLASH + "GE_APE:LH?@10" + CLASH_ALLOWED),
    ("wants that add up, so that a server is asked", READ + "GE_APE:BH?|GE_APE:LH?|--fetch|--archive=archive", NO_SERVER),
    ("no server", READ + "GE_WLF|--fetch", NO_SERVER),
    ("an end before its begin", READ + "GE_WLF|--begin=2024-02-29T00:00:00|--end=2024-02-28T23:59:59",
     "22 Limit\n  cause: the window ends before it begins\n  word: 2024-02-28T23:59:59\n  allowed: the time of --begin, or a later one\n"),
    ("256 wants", READ + "--fetch|--retry=1" + 256 * "|GE_APE",
     "22 Limit\n  cause: there are more WANTs than one reader can ask for\n  allowed: 1 to 255 WANTs\n"),
]
# The same of what the release says in other words.
NEW_WORDS = [
    ("a list of feeds", "serve|none/at.all|--listen=127.0.0.1:0|--feed=127.0.0.1:0|--turns=1|--feed-from=10.0.0.7, 10.0.0.0/33, localhost",
     "24 Access\n  cause: an entry has no mask of 0 to 32, or of four numbers, after its slash\n"
     "  word: 10.0.0.7, 10.0.0.0/33, localhost\n  entry: 10.0.0.0/33\n" + LISTS),
    ("a host's name", "feed|localhost:18001|none/at.all",
     "11 Address\n  cause: a word is no address with a port\n  word: localhost:18001\n"
     "  allowed: four numbers and a port, as 127.0.0.1:18000; names of hosts and IPv6 are not taken\n"),
    ("a want's station", READ + "GE_WLF|GE_|--fetch",
     NO_WANT + "GE_\n  part: station\n  allowed: 1 to 5 of A to Z and 0 to 9, after _; each WANT is a word, or a line, of its own\n"),
    ("a want's number", READ + "GE_WLF|GE_APE@XYZ|--fetch",
     NO_WANT + "GE_APE@XYZ\n  part: number\n"
     "  allowed: 1 to 6 hexadecimal digits, after @; --fetch with --begin needs them, as @0, --end takes none\n"),
    ("no time", READ + "GE_WLF|--fetch|--begin=29.2.2024",
     "60 Shape\n  cause: a word is no time: the text has not the shape of a time\n  word: 29.2.2024" + TIMES),
    ("no such day", READ + "GE_WLF|--fetch|--begin=2023-02-29T00:00:00Z",
     "61 Range\n  cause: a word is no time: a number of the time is out of range, or there is no such date\n"
     "  word: 2023-02-29T00:00:00Z" + TIMES),
]
TITLE = 'title = "T"\n'
STATION = '[[station]]\nnetwork = "%s"\ncode = "%s"\ndescription = ""\ncapacity = %s\n'
APE = STATION % ("GE", "APE", 3)
ISLAND = TITLE + APE
NETWORK, CODE = "  allowed: 1 to 2 of A to Z and 0 to 9\n", "  allowed: 1 to 5 of A to Z and 0 to 9\n"
CAPACITY, TITLES = "  allowed: a whole number from 1 to 65536\n", "  allowed: 1 to 100 bytes of printable ASCII\n"
NO_STATIONS = "  wanted: an array of tables, each under [[station]]\n  allowed: 1 to 1024 tables\n"
# Configurations, and the lines behind the one that names the file; the parts of these lines, if something stands between them.
CONFIGURATIONS = [
    ("a capacity of 0", ISLAND + STATION % ("XX", "APE", 0), "  line: 11\n  station: 2 XX APE\n  key: capacity\n" + CAPACITY),
    ("a capacity as a text", ISLAND + STATION % ("XX", "APE", '"4"'),
     "  line: 11\n  station: 2 XX APE\n  key: capacity\n  found: a text\n  wanted: a whole number\n" + CAPACITY),
    ("a network in lower case", ISLAND + '[[station]]\nnetwork = "ge"\n', "  line: 8\n  station: 2\n  key: network\n" + NETWORK),
    ("no network", ISLAND + '[[station]]\ncode = "APE"\n', "  line: 7\n  station: 2\n  key: network\n  found: nothing\n  wanted: a text\n" + NETWORK),
    ("a code of six", ISLAND + '[[station]]\nnetwork = "XX"\ncode = "SIXSIX"\n', "  line: 9\n  station: 2 XX\n  key: code\n" + CODE),
    ("no description", ISLAND + '[[station]]\nnetwork = "XX"\ncode = "APE"\n',
     "  line: 7\n  station: 2 XX APE\n  key: description\n  found: nothing\n  wanted: a text\n  allowed: at most 60 bytes of printable ASCII\n"),
    ("a first of seven digits", ISLAND + 'first = "0000000"\n',
     "  line: 7\n  station: 1 GE APE\n  key: first\n  allowed: 1 to 6 hexadecimal digits\n"),
    ("the first entry of a list", ISLAND + 'access = "10.0.0.7,, 10.0.0/8 10.0.0"\n',
     "  line: 7\n  station: 1 GE APE\n  key: access\n  entry: 10.0.0/8\n" + LISTS),
    ("a list as an array", ISLAND + 'access = ["10.0.0.7"]\n',
     "  line: 7\n  station: 1 GE APE\n  key: access\n  found: an array\n  wanted: a text\n" + LISTS),
    ("two stations alike", ISLAND + APE, "  line: 7\n  station: 2 GE APE\n  key: network and code\n  allowed: not those of an earlier station\n"),
    ("the second of three is at fault", ISLAND + STATION % ("XX", "B", 65537) + "[[station]]\nnetwork = 4\n",
     "  line: 11\n  station: 2 XX B\n  key: capacity\n" + CAPACITY),
    ("the third is at fault", ISLAND + STATION % ("XX", "B", 1) + "[[station]]\nnetwork = 4\n",
     "  line: 13\n  station: 3\n  key: network\n  found: a whole number\n  wanted: a text\n" + NETWORK),
    ("an empty file", "", "  key: title\n  found: nothing\n  wanted: a text\n" + TITLES),
    ("an empty title", 'title = ""', "  line: 1\n  key: title\n" + TITLES),
    ("the list of the server", TITLE + 'access = "10.0.0.0/33"', "  line: 2\n  key: access\n  entry: 10.0.0.0/33\n" + LISTS),
    ("10001 connections", TITLE + "max_connections = 10001", "  line: 2\n  key: max_connections\n  allowed: a whole number from 1 to 10000\n"),
    ("no station", TITLE, "  key: station\n  found: nothing\n" + NO_STATIONS),
    ("stations that are numbers", TITLE + "station = [4]", "  line: 2\n  key: station\n  found: an array\n" + NO_STATIONS),
    ("a station as a table", TITLE + '[station]\nnetwork = "GE"', "  line: 2\n  key: station\n  found: a table\n" + NO_STATIONS),
    ("no TOML", ISLAND + "title = \ncode = 3\n", "  line: 7\n  column: 9\n  reason: ", "\n  text: title = \n  allowed: TOML in UTF-8\n"),
    ("no UTF-8", b'title = "\xc3\xa9\xff"\n',
     "  line: 1\n  column: 11\n  offset: 11\n  found: bytes that are not UTF-8\n  allowed: TOML in UTF-8\n"),
]
# The same of groups.
GROUPS = [
    ("no such group", ISLAND + 'access = "@staff"\n',
     "  line: 7\n  station: 1 GE APE\n  key: access\n  entry: @staff\n  reason: no text of the table groups has this name\n" + LISTS),
    ("an entry of a group", '[groups]\nstaff = "10.0.0.7 10.0.0.0/40"\n[[station]]'.join((ISLAND + 'access = "@staff"\n').split("[[station]]")),
     "  line: 9\n  station: 1 GE APE\n  key: access\n  entry: 10.0.0.0/40\n" + LISTS),
]
# A configuration that is to replace the island's, and what is said of it; nothing if nothing changes but the stations that are there.
DIFFERENCES = [
    ("a capacity and a first", TITLE + STATION % ("GE", "APE", 4) + 'first = "A"\n',
     "  station: 1 GE APE\n  key: capacity\n  in force: 3\n  in the file: 4\n"),
    ("a first", ISLAND + 'first = "a"\n', "  station: 1 GE APE\n  key: first\n  in force: 000000\n  in the file: 00000A\n"),
    ("connections", TITLE + "max_connections = 7\n" + STATION % ("XX", "APE", 3),
     "  key: max_connections\n  in force: 100\n  in the file: 7\n"),
    ("a station more", ISLAND + STATION % ("XX", "APE", 3), "  key: station\n  in force: 1\n  in the file: 2\n"),
    ("another title", 'title = "U"\n' + APE, "  key: title\n  in force: T\n  in the file: U\n"),
]
# Scripts, and the line that is named.
SCRIPTS = [
    ("the first line", "open\n", 1),
    ("the first of two", "# first\n\nopen 10.0.0.7\nopen\nopen\n", 4),
    ("a line without its end", "open 10.0.0.7\ntake 0 1\nclose", 3),
    ("a space", "\n" * 9 + " \n", 10),
]
# How many bytes of two records, GE and spaces; the fault, and the lines that explain it.
RECORDS = [
    ("two whole ones", 1024, 0, ""),
    ("two and a rest", 1026, 1, "41 Partial\n  cause: the file ends inside a record\n  file: day.mseed\n  record: 3\n  offset: 1024\n"),
    ("a third that is refused, and a rest", 2047, 1,
     "1 Sequence\n  cause: the sequence number has a byte that is no digit, no space and not 0\n"
     "  file: day.mseed\n  record: 3\n  offset: 1024\n"),
]


class Explained(kit.Test):
    @kit.rows(WORDS)
    def test_words(self, words, lines):
        self.explains_words(words, lines)

    def explains_words(self, words, lines):
        ended = self.run_program("-v", *words.split("|"))
        self.assertEqual(ended.status, 1)
        self.assertTrue(ended.said.endswith("seedlinkd: " + lines), ended.said)

    @kit.unreleased
    @kit.rows(NEW_WORDS)
    def test_other_words(self, words, lines):
        self.explains_words(words, lines)

    def explains(self, text, begins, ends=""):
        """What `view` says of a configuration behind the name of its file is this, or begins and ends so."""
        ended = self.run_program("-v", "view", kit.write("island.toml", text))
        self.assertEqual((ended.status, ended.printed), (1, ""))
        said = ended.said.partition("\n  file: island.toml\n")[2]
        if ends:
            self.assertTrue(said.startswith(begins) and said.endswith(ends), ended.said)
        else:
            self.assertEqual(said, begins)

    @kit.unreleased
    @kit.rows(CONFIGURATIONS)
    def test_a_configuration(self, text, begins, ends=""):
        self.explains(text, begins, ends)

    @kit.unreleased
    @kit.rows(GROUPS)
    def test_a_configuration_with_groups(self, text, begins, ends=""):
        self.explains(text, begins, ends)

    @kit.rows(DIFFERENCES)
    def test_a_difference(self, text, lines):
        """The same is said by `view`, and by a server that is given the file."""
        kit.write("island.toml", ISLAND)
        ended = self.run_program("view", "island.toml", kit.write("new.toml", text))
        self.assertEqual((ended.status, ended.said), (0, ""))
        self.assertTrue(ended.printed.endswith("a running server refuses this: 34 Different\n  file: new.toml\n" + lines), ended.printed)

    def test_no_difference(self):
        ended = self.run_program("view", kit.write("island.toml", ISLAND), kit.write("new.toml", ISLAND + "\n"))
        self.assertEqual(ended.all(), "nothing changes\nstatus 0")

    def test_a_server_explains_what_it_refuses(self):
        server = self.serve(ISLAND, "--reread", "1", "-v")
        kit.write(server.config, ISLAND.replace("= 3", "= 4"))
        server.await_said(
            "seedlinkd: 34 Different\n  cause: the configuration differs in more than its access lists\n"
            "  file: %s\n  station: 1 GE APE\n  key: capacity\n  in force: 3\n  in the file: 4\n" % server.config)

    @kit.rows(SCRIPTS)
    def test_a_script(self, script, line):
        kit.write("island.toml", ISLAND)
        ended = self.run_program("-v", "replay", "island.toml", kit.write("views.script", script))
        said = "seedlinkd: 45 Script\n  cause: a line of the script is no event\n  file: views.script\n  line: %d\n" % line
        self.assertEqual(ended.said, said)

    @kit.rows(RECORDS)
    def test_records(self, count, status, lines):
        data = record(1) + record(2) + b"GE".ljust(1023)
        ended = self.run_program("-v", "check", "--quiet", kit.write("day.mseed", data[:count]))
        self.assertEqual((ended.status, ended.said), (status, "seedlinkd: " + lines if lines else ""))
