"""Records: random ones are read as a plain reader does, which was written from docs/PROFILE.md and SEED's manual, and the same of those
that arrive at a server."""

import collections
import random

import kit
import plain_records
from kit import record

# Where the fields of a start are, and the start in ticks; None if it is refused.
STARTS = [
    ((2024, 60, 0, 0, 0, 0), 17091648000000), ((1900, 1, 0, 0, 0, 0), -22089888000000), ((1900, 60, 0, 0, 0, 0), -22038912000000),
    ((1900, 366, 0, 0, 0, 0), -21774528000000), ((1970, 1, 0, 0, 0, 1), 1), ((2000, 366, 23, 59, 59, 9999), 9783071999999),
    ((2100, 365, 23, 59, 60, 9999), 41339808009999), ((2100, 366, 0, 0, 0, 0), 41339808000000), ((1899, 365, 0, 0, 0, 0), None),
    ((2101, 1, 0, 0, 0, 0), None), ((2024, 0, 0, 0, 0, 0), None), ((2024, 367, 0, 0, 0, 0), None), ((2024, 1, 24, 0, 0, 0), None),
    ((2024, 1, 0, 60, 0, 0), None), ((2024, 1, 0, 0, 61, 0), None), ((2024, 1, 0, 0, 0, 10_000), None),
]
# Years and days of records in little order, and whether they are told from one in big order.
LITTLE = [(2024, 60, True), (2056, 2, True), (2056, 255, True), (2056, 258, True), (2056, 1, False), (2056, 256, False), (2056, 257, False)]
CENTRE = "".join(
    '[[station]]\nnetwork = "%s"\ncode = "%s"\ndescription = ""\ncapacity = 65536\nfirst = "%s"\n' % it
    for it in (("GE", "APE", "0"), ("GE", "WLF", "FFFFFE"), ("XX", "APE", "0")))
STATIONS = {(b"GE", b"APE"): 0, (b"GE", b"WLF"): 0xFFFFFE, (b"XX", b"APE"): 0}


class Records(kit.Test):
    def drawn(self, seed, count):
        draw = random.Random(seed)
        return [plain_records.drawn(draw) for _ in range(count)]

    def compare(self, seed, count):
        """The lines of `check` are those of the plain reader. How many are right, and how many have each fault."""
        records = self.drawn(seed, count)
        lines = [plain_records.line_of(it) for it in records]
        kit.write("records", b"".join(records))
        ended = self.run_program("check", "records")
        for number, (found, wanted) in enumerate(zip(ended.printed.splitlines(), lines), 1):
            self.assertEqual(found, "%d %s" % (number, wanted), records[number - 1].hex())
        self.assertEqual(ended.printed.count("\n"), count)
        first = next(it for it in lines if it.startswith("refused"))
        self.assertEqual((ended.status, ended.said), (1, "seedlinkd: %s\n" % first[8:]))
        return collections.Counter(it if it.startswith("refused") else "right" for it in lines)

    def assert_many(self, counts, right, refused):
        self.assertGreater(counts.pop("right"), right)
        self.assertEqual(len(counts), 6)
        self.assertGreater(min(counts.values()), refused)

    def test_5000_random_records(self):
        self.assert_many(self.compare(1, 5_000), 1_000, 5)

    @kit.slow
    @kit.limit(300)
    @kit.rows([("%d" % it, it) for it in range(2, 6)])
    def test_25000_random_records_more(self, seed):
        self.assert_many(self.compare(seed, 25_000), 5_000, 50)

    def arrive(self, seed, count):
        """Each record is refused, or given the next number of its station and handed on as it came."""
        records = self.drawn(seed, count)
        kit.write("centre.toml", 'title = "T"\n' + CENTRE)
        script = "".join("arrive-hex %s\n" % it.hex() for it in records)
        ended = self.run_program("replay", "--text", "centre.toml", kit.write("script", script))
        self.assertEqual(ended.printed.splitlines(), ["arrive " + plain_records.line_of(it) for it in records])
        taken = {it: [] for it in STATIONS}
        for data in records:
            try:
                one = plain_records.Record(data)
            except plain_records.Refused:
                continue
            if (one.network, one.station) in taken:
                taken[one.network, one.station].append(data)
        wanted = []
        for client, ((network, code), held) in enumerate(taken.items()):
            self.assertGreater(len(held), count // 100)
            script += "open 10.0.0.7\nline %d STATION %s %s\ntake %d 9\n" % (client, code.decode(), network.decode(), client)
            script += "line %d FETCH\ntake %d 9\nline %d END\n" % (client, client, client) + "take %d 520\n" % client * (len(held) + 1)
            packets = [kit.packet(STATIONS[network, code] + at, it).hex() for at, it in enumerate(held)]
            wanted += ["%d %s" % (client, it) for it in [kit.OK.hex()] * 2 + packets + [b"END".hex()]]
        ended = self.run_program("replay", "centre.toml", kit.write("script", script))
        self.assertEqual(ended.printed.splitlines(), wanted)

    def test_5000_random_records_arrive(self):
        self.arrive(6, 5_000)

    @kit.slow
    @kit.limit(300)
    def test_95000_random_records_arrive(self):
        self.arrive(7, 95_000)

    def test_starts(self):
        kit.write("records", b"".join(record(1, start=it) for it, _ in STARTS))
        wanted = ["%d GE WLF -- BHZ D %d %d 100" % (at, it, it + 10_000) if it is not None else "%d refused 3 Time" % at
                  for at, (_, it) in enumerate(STARTS, 1)]
        self.assertEqual(self.run_program("check", "records").printed.splitlines(), wanted)

    def test_records_in_little_order(self):
        """Big order is looked for first: three days of a year are read as another one."""
        for year, day, is_told in LITTLE:
            with self.subTest(year=year, day=day):
                big = bytearray(record(1, start=(year, day, 1, 2, 3, 4)))
                for at in list(range(20, 24, 2)) + list(range(28, 36, 2)) + [44, 46, 48, 50]:
                    big[at], big[at + 1] = big[at + 1], big[at]
                printed = self.run_program("check", kit.write("record", bytes(big))).printed
                self.assertEqual(printed == "1 " + plain_records.Record(record(1, start=(year, day, 1, 2, 3, 4))).line() + "\n", is_told)
                self.assertEqual(printed, "1 %s\n" % plain_records.line_of(bytes(big)))
