"""What a client's lines mean: how bytes are lines, which words are commands, patterns, numbers and times, and which records they ask for.
Each table is one script of `replay`, with a client for each row."""

import calendar
import datetime

import kit
import plain_records
from kit import ERROR, GREETING, OK

ISLAND = kit.TOP + "/examples/island.toml"
NOTHING = b""
# Bytes, and how many lines these are that are answered ERROR.
LINES = [
    (b"A\rB\rC\r", 3), (b"A\nB\nC\n", 3), (b"A\r\nB\r\nC\r\n", 3), (b"HELLO", 0), (b"\r\n\n\r", 0), (b"\n\rA\n\r\nB", 1),
    (b"A\tB \0\n", 1), (b" \r  \n\r", 0),
]
# How many spaces follow HELLO, and the answer of this line and of one more.
LONG = [(0, GREETING), (251, GREETING), (252, ERROR), (253, ERROR), (595, ERROR)]
CAT = b"GE WLF   Forest\r\n"
OVER = None
# A line of a client that has named GE WLF and asked for FETCH there, and its answer.
COMMANDS = [
    ("HELLO", GREETING), ("hello", GREETING), ("  hElLo   ", GREETING), ("CAT", CAT), ("cat", CAT), ("BYE", OVER), ("bye", OVER),
    ("END", b"END"),
    ("end", b"END"), ("eNd", b"END"), (" ", NOTHING), ("    ", NOTHING),
] + [(it, OK) for it in (
    "STATION WLF", "station WLF GE", "  Station   WLF  ", " station  WLF   GE ", "SELECT", "select ", "SELECT BHZ", "select BHZ",
    "SELECT !BH?.D",
    "select  !BH?.D", "DATA", "data", "DATA fF", "data 0000a3", "FETCH", "fetch FFFFFF", "DATA 0 2024,2,29", "data 0 2024,2,29",
    "FETCH 0 2024,2,29",
    "fetch 0 2024,2,29", "Fetch 10 2024,02,29,00", "TIME", "time 2024,2,29", "TIME 2024,2,29 2024,3,1", "time 2024,2,29 2024,3,1",
    "TIME 2024,2,29,0,0,0 2024,2,29,0,0,10")
] + [(it, ERROR) for it in (
    # Too few words, or too many.
    "HELLO x", "hello x", "CAT x", "cat x", "BYE x", "bye x", "END x", "end x", "STATION", "station", "STATION WLF GE x",
    "station WLF GE x",
    "SELECT BH? x", "select BH? x", "DATA 0 2024,2,29 x", "data 0 2024,2,29 x", "FETCH 0 2024,2,29 x", "fetch 0 2024,2,29 x",
    "TIME 2024,2,29 2024,3,1 x", "time 2024,2,29 2024,3,1 x",
    # No command, and codes in lower case.
    "DATA 1000000", "DATA G", "DATA 2024,2,29", "FETCH 0 2023,2,29", "TIME 0", "TIME 2024,2,29 0", "INFO ID", "HELL", "HELLOO", "HELLO\tx",
    "\tHELLO",
    "BATCH", "CAPABILITIES", "STATION wlf GE", "STATION WLF ge")
]
PATTERNS = [
    "BH?", "!E", "E", "00BHZ.D", "--LCQ", "D", ".L", "!.T", "BHZ.C", "!00bhz", "??B?9.O", "?-???",
]
NO_PATTERNS = [
    "BH", ".Q", "!", "Q", "d", "B-Z", "BHZD", "BHZ-D", "00B.Z", "00BHZD", "00BHZ.Q", "!!E", "BHZ.?", "BHZ.", ".", "!.", "BH Z", "00BHZ.DD",
    "?", "??",
    "????", "BH\xff",
]
# Patterns, the location, channel and type of a record, and whether it passes.
PASSED = [
    # A part that is left off matches everything.
    ("BH?", "00", "BHZ", "D", True), ("BH?", "00", "LHZ", "D", False), ("00BHZ.D", "00", "BHZ", "D", True),
    ("00BHZ.D", "00", "BHZ", "L", False),
    ("00BHZ.D", "10", "BHZ", "D", False), ("00BHZ", "00", "BHN", "D", False), (".T", "", "LOG", "T", True),
    ("BHZ.D", "", "bHZ", "D", False),
    # A hyphen matches a space and not itself.
    ("--LCQ", "", "LCQ", "D", True), ("--LCQ", "--", "LCQ", "D", False), ("--LCQ", " -", "LCQ", "D", False),
    ("??LCQ", "", "LCQ", "D", True),
    # A type alone means the same with its point, and without one a pattern is for each type.
    ("E", "00", "BHZ", "E", True), ("E", "00", "BHZ", "D", False), (".E", "00", "BHZ", "E", True), (".E", "00", "BHZ", "D", False),
    ("BHZ", "00", "BHZ", "O", True), ("BHZ", "00", "BHZ", "C", True), ("C", "00", "BHZ", "C", True), ("O", "00", "BHZ", "O", True),
    ("L", "00", "BHZ", "L", True), ("T", "00", "BHZ", "E", False),
    # A `!` alone lets everything else pass, and outweighs what chooses.
    ("!E", "00", "BHZ", "D", True), ("!E", "00", "LOG", "L", True), ("!E", "00", "BHZ", "E", False), ("", "00", "BHZ", "O", True),
    ("BHZ !E", "00", "BHZ", "D", True), ("BHZ !E", "00", "BHZ", "E", False), ("!E BHZ", "00", "BHZ", "E", False),
    ("BHZ !E", "00", "BHN", "D", False),
    ("BHZ LH?", "00", "LHE", "D", True),
]
# Numbers as they are written, and which they are.
NUMBERS = [("0", 0), ("A3", 0xA3), ("0000a3", 0xA3), ("fFfFfF", 0xFFFFFF), ("019AF", 0x19AF), ("fedcba", 0xFEDCBA), ("987654", 0x987654),
    ("fFfFfE", 0xFFFFFE)]
NO_NUMBERS = ["0000000", "G", "12g", "/:@`", "0x1", "-1", "+1"]
# Times of commands, and the ticks at which they are; or whether it is their shape or their range that is wrong.
TIMES = [
    # Numbers have leading zeros or not, and those that are left off are 0.
    ("2024,2,29", 17091648000000), ("2024,2,29,5", 17091828000000), ("2024,02,29,05,6", 17091831600000),
    ("2024,2,09,8,07,6", 17074660260000),
    ("2024,2,29,23,59,60", 17092512000000), ("1970,1,1", 0), ("1969,12,31,23,59,59", -10000), ("1900,1,1", -22089888000000),
    ("1900,12,31", -21775392000000), ("2100,1,1", 41024448000000), ("2100,12,31", 41338944000000), ("2100,12,31,23,59,60", 41339808000000),
    ("2000,2,29", 9517824000000),
]
SHAPE, RANGE = "60 Shape", "61 Range"
NO_TIMES = [(it, RANGE) for it in (
    # The years are 1900 to 2100, the calendar says which dates exist, and a time of a day has a range.
    "1899,12,31", "2101,1,1", "1900,2,29", "2023,2,29", "2100,2,29", "2024,4,31", "2024,13,1", "2024,0,1", "2024,1,0", "2024,2,29,24",
    "2024,2,29,0,60", "2024,2,29,0,0,61")
] + [(it, SHAPE) for it in (
    "2024,2", "24,2,29", "2024,2,029", "2024,2,29,", "2024,2,29,0,0,0,0", "2024-2-2", "0000,99,99,99,99,9x", "2024,,29", "now", "x")
]
# Rings: how many records they hold, the number of the first one, how many came, and numbers that are asked for.
RINGS = [
    (3, 0xFFFFFE, 1, ()), (3, 0xFFFFFE, 2, ()), (3, 0xFFFFFE, 3, ()), (3, 0xFFFFFE, 4, (0xFFFFFD, 0xFFFFFE, 0xFFFFFF, 0, 1, 2, 3)),
    (3, 0xFFFFFE, 5, ()), (3, 0, 5, (2, 3, 4)), (3, 0x12, 0, (0x12,)), (1, 0, 1, (0, 1)), (1, 0, 2, (1, 2)), (1, 0, 3, (2, 3)),
    (1, 0, 200, (199, 200)),
    (65536, 0xFFFF00, 65537, (0xFFFF00, 0xFFFF01, 0xFFFFFF, 0, 0xFF00, 0xFF01)),
    (65536, 0xFFFF00, 3 * 65536 + 5, (0x1FF04, 0x1FF05, 0x2FF04, 0x2FF05)),
]


def station(code, capacity=4, first=0):
    return '[[station]]\nnetwork = "GE"\ncode = "%s"\ndescription = "d"\ncapacity = %d\nfirst = "%06X"\n' % (code, capacity, first)


def start_at(ticks):
    """A start at that moment, as the year, the day in it, and so on. The first of 2101 is the last second of 2100."""
    moment = datetime.datetime(1970, 1, 1) + datetime.timedelta(microseconds=100 * ticks)
    if moment.year == 2101:
        return 2100, 365, 23, 59, 60, 0
    day = moment.timetuple()
    return day.tm_year, day.tm_yday, day.tm_hour, day.tm_min, day.tm_sec, moment.microsecond // 100


class Lines(kit.Test):
    def setUp(self):
        super().setUp()
        self.script, self.wanted, self.rows, self.clients, self.row = [], [], [], 0, None

    def client(self, row, address="172.16.0.9"):
        """A client comes. Its number."""
        self.row = row
        self.script.append("open " + address)
        self.clients += 1
        return self.clients - 1

    def send(self, client, data):
        self.script.append("bytes %d %s" % (client, (data if isinstance(data, bytes) else data.encode("latin-1")).hex()))

    def take(self, client, wanted, count=600):
        self.script.append("take %d %d" % (client, count))
        self.wanted.append("%d %s" % (client, "- end" if wanted is OVER else wanted.hex() or "-"))
        self.rows.append(self.row)

    def say(self, client, line, wanted):
        self.send(client, line.encode("latin-1") + b"\r")
        self.take(client, wanted)

    def play(self, config=ISLAND):
        """Plays the script. Each take is handed what is wanted."""
        ended = self.run_program("replay", config, kit.write("script", "\n".join(self.script) + "\n"))
        self.assertEqual((ended.status, ended.said), (0, ""))
        for found, wanted, row in zip(ended.printed.splitlines(), self.wanted, self.rows):
            self.assertEqual(found[:300], wanted[:300], row)
        self.assertEqual(ended.printed.splitlines(), self.wanted)

    def test_bytes_are_lines_in_whatever_pieces(self):
        for data, count in LINES:
            for at in range(len(data) + 1):
                client = self.client((data, at))
                for piece in (data[:at], data[at:]):
                    if piece:
                        self.send(client, piece)
                for _ in range(count):
                    self.take(client, ERROR)
                self.take(client, NOTHING)
        self.play()

    def test_lines_have_up_to_256_bytes(self):
        for count, answer in LONG:
            client = self.client(count)
            self.send(client, b"HELLO" + b" " * count + b"\r\nB\n")
            self.take(client, answer)
            self.take(client, ERROR)
            self.take(client, NOTHING)
        self.play()

    def test_commands(self):
        for line, answer in COMMANDS:
            client = self.client(line)
            self.say(client, "STATION WLF", OK)
            self.say(client, "FETCH", OK)
            self.say(client, line, answer)
        self.play()

    def test_commands_of_uni_station_mode(self):
        """What is OK of an action there begins a transfer without an answer."""
        for line, answer in COMMANDS:
            word = line.split()[0].upper() if line.split() else ""
            client = self.client(line)
            if word == "END":
                answer = ERROR
            elif answer == OK and word in ("DATA", "TIME"):
                answer = NOTHING
            elif answer == OK and word == "FETCH":
                answer = b"END"
            self.say(client, line, answer)
        self.play()

    def test_patterns(self):
        for texts, answer in ((PATTERNS, OK), (NO_PATTERNS, ERROR)):
            for text in texts:
                self.say(self.client(text), "SELECT " + text, answer)
        self.play()

    def test_what_patterns_let_pass(self):
        """Each record is the only one of its station."""
        for at, (patterns, location, channel, kind, is_passed) in enumerate(PASSED):
            client, code = self.client(PASSED[at]), "S%d" % at
            one = plain_records.made("GE", code, location, channel, kind)
            self.assertEqual(plain_records.Record(one).type, kind)
            self.script.append("arrive-hex " + one.hex())
            for line in ["STATION " + code] + ["SELECT " + it for it in patterns.split()] + ["FETCH"]:
                self.say(client, line, OK)
            self.say(client, "END", kit.packet(0, one) if is_passed else b"END")
        self.play(kit.write("config", 'title = "T"\n' + "".join(station("S%d" % at) for at in range(len(PASSED)))))

    def test_numbers(self):
        """Each number is that of the second of three records of its station."""
        config = 'title = "T"\n' + "".join(station("S%d" % at, 4, (number - 1) % 0x1000000) for at, (_, number) in enumerate(NUMBERS))
        for at, (text, number) in enumerate(NUMBERS):
            one = plain_records.made("GE", "S%d" % at)
            self.script += ["arrive-hex " + one.hex()] * 3
            for word in ("FETCH", "DATA"):
                client = self.client(text)
                self.say(client, "STATION S%d" % at, OK)
                self.say(client, "%s %s" % (word, text), OK)
                self.say(client, "END", kit.packet(number, one))
                self.take(client, kit.packet(number + 1, one))
                self.take(client, b"END" if word == "FETCH" else NOTHING)
        for text in NO_NUMBERS:
            self.say(self.client(text), "FETCH " + text, ERROR)
        self.play(kit.write("config", config))

    def test_times(self):
        """A time asks for what ends then or later: of each moment there is a record, and one that ends right before it."""
        ends = sorted({ticks - before for _, ticks in TIMES for before in (0, 1)} - {-22089888000001})
        records = [plain_records.made("GE", "APE", start=start_at(it), samples=0) for it in ends]
        self.assertEqual([plain_records.Record(it).end for it in records], ends)
        self.script += ["arrive-hex " + it.hex() for it in records]
        for text, ticks in TIMES:
            client = self.client(text)
            self.send(client, "TIME %s\r" % text)
            for number, (one, end) in enumerate(zip(records, ends)):
                if end >= ticks:
                    self.take(client, kit.packet(number, one))
            self.take(client, NOTHING)
        for text, _ in NO_TIMES:
            for line in ("TIME " + text, "TIME 2024,2,29 " + text, "FETCH 0 " + text):
                self.say(self.client(line), line, ERROR)
        self.play(kit.write("config", 'title = "T"\n' + station("APE", 100)))

    @kit.rows([(text, text, "47 Connect") for text, _ in TIMES] + [(text, text, fault) for text, fault in NO_TIMES])
    def test_a_time_of_a_reader(self, text, fault):
        self.assertEqual(self.run_program("read", kit.HERE + ":1", "GE_APE", "--begin", text).said, "seedlinkd: %s\n" % fault)

    def test_times_are_those_of_the_calendar(self):
        for text, ticks in TIMES:
            numbers = [int(it) for it in text.split(",")] + [0, 0, 0]
            self.assertEqual(calendar.timegm(tuple(numbers[:6])) * 10_000, ticks)

    @kit.rows([("%d of %d from %06X" % (count, capacity, first), capacity, first, count, asked) for capacity, first, count, asked in RINGS])
    def test_a_ring(self, capacity, first, count, asked):
        """A number that is held is where a request begins, the next one is the next to come, and any other is the oldest."""
        held = {(first + at) % 0x1000000: at for at in range(max(0, count - capacity), count)}
        oldest, following = max(0, count - capacity), (first + count) % 0x1000000
        self.script += ["arrive GE APE -- BHZ 2024,60,0,0,0,0 100"] * count
        for number in list(asked) + [(first + oldest) % 0x1000000, following]:
            client = self.client("%06X" % number)
            place = held.get(number, count if number == following else oldest)
            self.send(client, "FETCH %X\r" % number)
            self.take(client, b"SL%06X" % ((first + place) % 0x1000000) if place < count else b"END", 8)
            self.script.append("close %d" % client)
        self.play(kit.write("config", 'title = "T"\n' + station("APE", capacity, first)))

    def test_a_list_holds_64_patterns_and_all_hold_1024(self):
        """A list that is emptied makes room for another one, up to as many."""
        config = 'title = "T"\n' + "".join(station("S%d" % it) for it in range(20))
        client = self.client("client")

        def add(at, count, taken):
            self.say(client, "STATION S%d" % at, OK)
            for number in range(count):
                self.say(client, "SELECT BHZ", OK if number < taken else ERROR)

        add(7, 65, 64)
        for at in range(16):
            add(at, 64, 0 if at == 7 else 64)
        add(19, 1, 0)
        self.say(client, "STATION S3", OK)
        self.say(client, "SELECT", OK)
        add(19, 1, 1)
        add(3, 64, 63)
        self.play(kit.write("config", config))
