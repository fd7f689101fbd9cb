"""Configurations: which texts are one, the first fault of those that are none, and what is read of them."""

import kit

# The lines of a configuration with one station, each under a word of its own.
LINES = [
    ("title", 'title = "Test Centre"'), ("access", 'access = "0.0.0.0/0"'), ("max_connections", "max_connections = 8"),
    ("station", "[[station]]"),
    ("network", 'network = "GE"'), ("code", 'code = "APE"'), ("description", 'description = "Island"'), ("capacity", "capacity = 4"),
    ("first", 'first = "000000"'), ("own access", 'access = "10.0.0.0/8"'),
]
OK, MISSING, LIMIT, TOML, DUPLICATE, ACCESS = "", "21 Missing", "22 Limit", "20 Toml", "23 Duplicate", "24 Access"
# A word, the line in place of the one under it, and the fault.
KINDS = [
    # Keys that have to be there, and others.
    ("title", "", MISSING), ("network", "", MISSING), ("code", "", MISSING), ("description", "", MISSING), ("capacity", "", MISSING),
    ("access", "", OK), ("max_connections", "", OK), ("first", "", OK), ("own access", "", OK),
    # Texts and numbers of another kind.
    ("title", "title = 1", MISSING), ("title", 'title = ["Test Centre"]', MISSING), ("access", "access = true", MISSING),
    ("access", 'access = ["10.0.0.0/8"]', MISSING), ("network", "network = 6", MISSING), ("code", "code = 1.5", MISSING),
    ("description", "description = 2024-02-29", MISSING), ("first", "first = 0", MISSING), ("own access", "access = 10", MISSING),
    ("own access", 'access = { address = "10.0.0.0" }', MISSING), ("max_connections", 'max_connections = "8"', MISSING),
    ("max_connections", "max_connections = 8.0", MISSING), ("capacity", 'capacity = "4"', MISSING), ("capacity", "capacity = 4.0", MISSING),
    ("capacity", "capacity = true", MISSING),
    # Other keys are ignored.
    ("access", 'colour = "green"', OK), ("own access", "colour = 1", OK),
]
LIMITS = [
    # The bytes of texts.
    ("title", 'title = " ~"', OK), ("description", 'description = " ~"', OK), ("network", 'network = "A0"', OK),
    ("network", 'network = "Z9"', OK),
    ("code", 'code = "AZ09"', OK), ("title", r'title = "a\u001fb"', LIMIT), ("title", r'title = "a\u007fb"', LIMIT),
    ("title", 'title = "Zürich"', LIMIT),
    ("description", r'description = "\t"', LIMIT), ("description", r'description = "\u007f"', LIMIT), ("network", 'network = "ge"', LIMIT),
    ("network", 'network = "G "', LIMIT), ("code", 'code = "@"', LIMIT), ("code", 'code = "["', LIMIT), ("code", 'code = "/"', LIMIT),
    ("code", 'code = ":"', LIMIT),
    # Numbers at their limits, and beyond.
    ("max_connections", "max_connections = 1", OK), ("max_connections", "max_connections = 10000", OK), ("capacity", "capacity = 1", OK),
    ("capacity", "capacity = 65536", OK), ("max_connections", "max_connections = -1", LIMIT),
    ("max_connections", "max_connections = 0", LIMIT),
    ("max_connections", "max_connections = 10001", LIMIT), ("capacity", "capacity = -1", LIMIT), ("capacity", "capacity = 0", LIMIT),
    ("capacity", "capacity = 65537", LIMIT), ("capacity", "capacity = 9223372036854775807", LIMIT),
    # The number of the first record has 1 to 6 digits of either case.
    ("first", 'first = ""', LIMIT), ("first", 'first = "0000000"', LIMIT), ("first", 'first = "00000G"', LIMIT),
    ("first", 'first = "0x1"', LIMIT),
    ("first", 'first = " 1"', LIMIT),
]
# The lengths of texts that are taken, and those that are not.
LENGTHS = [
    ("title", (1, 100), (0, 101)), ("network", (1, 2), (0, 3)), ("code", (1, 5), (0, 6)), ("description", (0, 60), (61,)),
]
LIMITS += [
    (key, '%s = "%s"' % (key, "X" * it), fault)
    for key, taken, refused in LENGTHS for fault, counts in ((OK, taken), (LIMIT, refused)) for it in counts
]
# Whole texts, and the fault.
WHOLE = [
    ("title =", TOML), (b'title = "\xff"\n', TOML), ('title "Test Centre"\n', TOML), ('title = "t"\ntitle = "t"\n', TOML),
    ('title = "t"\n[[station]\n', TOML), ("", MISSING),
    # The first fault is told.
    ('access = "x"\nmax_connections = 0\n', MISSING), ('title = "t"\naccess = "x"\nmax_connections = 0\n', ACCESS),
    ('title = "t"\naccess = "1.2.3.4/x"\nmax_connections = 0\n', ACCESS), ('title = "t"\nmax_connections = 0\nstation = 1\n', LIMIT),
    ('title = "t"\n[[station]]\nnetwork = 6\ncode = ""\n', MISSING), ('title = "t"\n[[station]]\nnetwork = "GE"\ncode = ""\n', LIMIT),
    ('title = "t"\n[[station]]\nnetwork = "ge"\n[[station]]\n', LIMIT),
    # Stations are tables, and there are 1 to 1024.
    ('title = "Test Centre"\n', MISSING), ('title = "t"\nstation = "GE"\n', MISSING), ('title = "t"\nstation = [1]\n', MISSING),
    ('title = "t"\n[station]\nnetwork = "GE"\n', MISSING), ('title = "None"\nstation = []\n', LIMIT),
    # An element that is no table is told before what another element has.
    ('title = "t"\nstation = [{ network = "" }, 1]\n', MISSING), ('title = "t"\nstation = [{ network = "" }]\n', LIMIT),
]
VAULT = 'network = "XX"\ncode = "APE"\ndescription = "Vault"\ncapacity = 1\n'
FOREST = 'network = "GE"\ncode = "WLF"\ndescription = "Vault"\ncapacity = 1\n'
# Parts of examples/island.toml without its comments, what stands in their place, and the fault.
PARTS = [
    ('title = "Test Centre"\n', "", MISSING), ('title = "Test Centre"\n', "title =\n", TOML), ("capacity = 4", "capacity = 0", LIMIT),
    ("10.0.0.0/8", "10.0.0/8", ACCESS), (VAULT, FOREST, DUPLICATE),
    # The text of an access list is judged before duplicates.
    (VAULT, FOREST + 'access = "x"\n', ACCESS),
]
# A line, the number of the first record, and how many are held.
SETTINGS = [
    ("capacity", "capacity = 65536", "000000", 65536), ("first", 'first = "0"', "000000", 4), ("first", 'first = "a"', "00000A", 4),
    ("first", 'first = "A"', "00000A", 4), ("first", 'first = "FfFfFe"', "FFFFFE", 4), ("first", "", "000000", 4),
]
# Access lists, and an address that each admits, or that it doesn't.
ADMITTED = [
    ("10.0.0.0/0", "172.16.0.9", True), ("10.0.0.7/32", "10.0.0.7", True), ("10.0.0.7/32", "10.0.0.8", False),
    ("10.0.0.7", "10.0.0.7", True),
    ("10.0.0.7", "10.0.0.8", False), ("010.000.0.7/255.255.255.255", "10.0.0.7", True), ("010.000.0.7/255.255.255.255", "10.0.0.8", False),
    ("10.9.0.9/255.0.255.0", "10.0.0.7", True), ("10.9.0.9/255.0.255.0", "10.0.1.7", False),
    (", 10.0.0.7 ,,192.168.0.0/16,", "10.0.0.7", True),
    (", 10.0.0.7 ,,192.168.0.0/16,", "192.168.3.4", True), (", 10.0.0.7 ,,192.168.0.0/16,", "192.169.3.4", False), ("", "10.0.0.7", False),
    (" ", "10.0.0.7", False), (" , ,", "10.0.0.7", False), ("1.2.3.4/08", "1.9.9.9", True), ("1.2.3.4/08", "2.2.3.4", False),
]
# Invalid lists, the first entry that is, and whether its address or its mask is wrong.
ADDRESS = "is no address, network or group; everybody is 0.0.0.0/0, and no name of a host is taken"
MASK = "has no mask of 0 to 32, or of four numbers, after its slash"
INVALID = [
    ("10.0.0/8", "10.0.0/8", ADDRESS), ("256.0.0.1", "256.0.0.1", ADDRESS), ("1.2.3", "1.2.3", ADDRESS),
    ("1.2.3.4.5", "1.2.3.4.5", ADDRESS),
    ("1..2.3", "1..2.3", ADDRESS), ("0001.2.3.4", "0001.2.3.4", ADDRESS), ("1.2.3.4 /8", "/8", ADDRESS),
    ("1.2.3.4\\t", "1.2.3.4?", ADDRESS),
    ("/8", "/8", ADDRESS), ("10.0.0.0/33", "10.0.0.0/33", MASK), ("1.2.3.4/", "1.2.3.4/", MASK), ("1.2.3.4/8/8", "1.2.3.4/8/8", MASK),
    ("1.2.3.4/008", "1.2.3.4/008", MASK), ("1.2.3.4/255.0.0", "1.2.3.4/255.0.0", MASK), ("1.2.3.4/33 1.2.3", "1.2.3.4/33", MASK),
    ("1.2.3 1.2.3.4/33", "1.2.3", ADDRESS),
]
# Three stations whose codes and networks are looked for.
FOUND = [("APE", "GE", True), ("WLF", "GE", True), ("APE", "XX", True), ("WLF", "XX", False), ("GE", "APE", False), ("AP", "GE", False),
    ("APE", "ge", False)]


def with_line(word, line):
    """The configuration of one station, with another line in place of the one under a word."""
    return "".join((line if it == word else usual) + "\n" for it, usual in LINES)


def many(count):
    """So many stations: two of each code, in two networks. Every third one is for another address, and each begins with its place."""
    text = 'title = "Many"\n'
    for it in range(count):
        text += '[[station]]\nnetwork = "%s"\ncode = "%d"\ndescription = ""\ncapacity = 1\nfirst = "%X"\n' % (
            "XX" if it % 2 else "GE", it // 2, it)
        text += 'access = "10.0.0.1"\n' if it % 3 == 0 else ""
    return text


def answers(printed):
    """What each take of a script was handed."""
    return [bytes.fromhex(line.split()[1].strip("-")) for line in printed.splitlines()]


class Configurations(kit.Test):
    def judge(self, text, fault):
        """It ends with this fault, behind unknown keys and, if there are several faults, a line for each."""
        ended = self.run_program("view", kit.write("centre.toml", text), "10.0.0.7")
        said = [it for it in ended.said.splitlines() if "unknown key" not in it and "; allowed: " not in it]
        self.assertEqual((ended.status, said), (1, ["seedlinkd: " + fault]) if fault else (0, []))

    @kit.rows([("%s: %s" % (word, line or "none"), word, line, fault) for word, line, fault in KINDS + LIMITS])
    def test_a_line(self, word, line, fault):
        self.judge(with_line(word, line), fault)

    @kit.rows([(repr(text), text, fault) for text, fault in WHOLE])
    def test_a_text(self, text, fault):
        self.judge(text, fault)

    @kit.rows([("%r to %r" % (old, new), old, new, fault) for old, new, fault in PARTS])
    def test_a_part(self, old, new, fault):
        text = "".join(it for it in kit.text_of(kit.TOP + "/examples/island.toml").splitlines(True) if not it.startswith("#"))
        self.assertIn(old, text)
        self.judge(text.replace(old, new), fault)

    @kit.rows([("%d stations" % it, it, fault) for it, fault in ((1, OK), (1024, OK), (1025, LIMIT))])
    def test_many_stations(self, count, fault):
        self.judge(many(count), fault)

    @kit.rows([(line or word, word, line, first, held) for word, line, first, held in SETTINGS])
    def test_numbers(self, word, line, first, held):
        """The number of the first record, and how many are held when one more came."""
        kit.write("centre.toml", with_line(word, line))
        arrive = "arrive GE APE -- BHZ 2024,60,0,0,0,0 100\n"
        fetch = "open 10.0.0.7\nline %d FETCH\n"
        script = arrive + fetch % 0 + "take 0 8\n" + arrive * (held - 1) + fetch % 1 + "take 1 8\n" + arrive + fetch % 2 + "take 2 8\n"
        ended = self.run_program("replay", "centre.toml", kit.write("script", script))
        second = b"SL%06X" % ((int(first, 16) + 1) % 0x1000000)
        self.assertEqual(answers(ended.printed), [b"SL" + first.encode()] * 2 + [second])

    @kit.rows([("%s: %s" % it[:2], *it) for it in ADMITTED])
    def test_an_access_list(self, entries, address, is_admitted):
        """`view` shows the station, and a client is answered so."""
        kit.write("centre.toml", with_line("own access", 'access = "%s"' % entries))
        self.assertEqual(self.run_program("view", "centre.toml", address).printed, "GE APE   Island\n" if is_admitted else "")
        ended = self.run_program("replay", "centre.toml", kit.write("script", "open %s\nline 0 STATION APE GE\ntake 0 9\n" % address))
        self.assertEqual(ended.printed, "0 %s\n" % (kit.OK if is_admitted else kit.ERROR).hex())

    @kit.rows([(it[0], *it) for it in INVALID])
    def test_an_invalid_access_list(self, entries, entry, cause):
        ended = self.run_program("-v", "view", kit.write("centre.toml", with_line("own access", 'access = "%s"' % entries)))
        causes = () if kit.is_release() else ("  cause: an entry %s\n" % cause,)
        self.assert_ends(ended, 1, "seedlinkd: 24 Access\n", *causes, "  entry: %s\n" % entry)

    def test_stations_are_found_by_their_codes(self):
        script = "open 10.0.0.7\n" + "".join("line 0 STATION %s %s\ntake 0 9\n" % it[:2] for it in FOUND)
        ended = self.run_program("replay", kit.TOP + "/examples/island.toml", kit.write("script", script))
        self.assertEqual(answers(ended.printed), [kit.OK if is_found else kit.ERROR for _, _, is_found in FOUND])

    def test_stations_are_found_among_many(self):
        """Of 1,024 stations a third is hidden: by network and code, and by the code alone. Each has one record, of another number."""
        count = 1024
        asked = [(code, network) for code in range(count // 2 + 2) for network in ("GE", "XX", "")]
        kit.write("many.toml", many(count))
        script = "".join("arrive %s %d -- BHZ 2024,60,0,0,0,0 100\n" % ("XX" if it % 2 else "GE", it // 2) for it in range(count))
        for client, words in enumerate(asked):
            lines = ("STATION %d %s" % words, "FETCH")
            script += "open 172.16.0.9\n" + "".join("line %d %s\ntake %d 9\n" % (client, it, client) for it in lines)
            script += "line %d END\ntake %d 8\n" % (client, client)
        wanted = []
        for code, network in asked:
            places = [2 * code + it for it, own in enumerate(("GE", "XX")) if network in (own, "")]
            seen = [it for it in places if it < count and it % 3]
            wanted += [kit.OK, kit.OK, b"SL%06X" % seen[0]] if seen else [kit.ERROR] * 3
        ended = self.run_program("replay", "many.toml", kit.write("script", script))
        self.assertEqual(answers(ended.printed), wanted)
