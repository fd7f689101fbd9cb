"""A plain reader of records, written from docs/PROFILE.md and chapter 8 of the SEED Reference Manual 2.4 alone; and random records, of
which most are right or nearly so."""

import datetime
import struct

FIRST_YEAR, LAST_YEAR = 1900, 2100
EPOCH = datetime.date(1970, 1, 1)
# What a blockette says of a record without samples.
TYPES = {200: "E", 201: "E", 300: "C", 310: "C", 320: "C", 390: "C", 395: "C", 500: "T", 2000: "O"}


class Refused(Exception):
    """A record that is none, by the number and name of what is wrong."""


def start_of(year, day, hour, minute, second, fraction):
    """Ticks of 0.0001 s since 1970."""
    days = (datetime.date(year, 1, 1) - EPOCH).days + day - 1
    return (days * 86_400 + hour * 3600 + minute * 60 + second) * 10_000 + fraction


def rate_of(factor, multiplier):
    """Samples a second, as a fraction: a factor or a multiplier below zero divides, and a multiplier of zero counts as one."""
    over, under = 1, 1
    for number in (factor, multiplier or 1):
        if number > 0:
            over *= number
        else:
            under *= -number
    return over, under


class Record:
    def __init__(self, data):
        """Reads 512 bytes, or raises what is wrong with them first."""
        self.data = data
        if any(byte not in b"0123456789 \0" for byte in data[:6]):
            raise Refused("1 Sequence")
        if data[6] not in b"DRQM":
            raise Refused("2 Quality")
        self.order = next((it for it in "><" if self.has_date(it)), None)
        if self.order is None:
            raise Refused("3 Time")
        year, day, hour, minute, second, _, fraction = struct.unpack_from(self.order + "HHBBBBH", data, 20)
        if hour > 23 or minute > 59 or second > 60 or fraction > 9999:
            raise Refused("3 Time")
        self.start = start_of(year, day, hour, minute, second, fraction)
        self.samples, factor, multiplier = struct.unpack_from(self.order + "Hhh", data, 30)
        chain = self.chain()
        lengths = [data[at + 6] for at, kind in chain if kind == 1000]
        if not lengths:
            raise Refused("5 No1000")
        if lengths[0] != 9:
            raise Refused("6 Length")
        self.end = self.start
        if factor:
            over, under = rate_of(factor, multiplier)
            self.end += self.samples * 10_000 * under // over
        if self.samples:
            self.type = "D" if factor else "L"
        else:
            self.type = next((TYPES[kind] for _, kind in chain if kind in TYPES), "D")
        self.network, self.station = data[18:20].rstrip(b" "), data[8:13].rstrip(b" ")
        self.location, self.channel = data[13:15], data[15:18]

    def has_date(self, order):
        year, day = struct.unpack_from(order + "HH", self.data, 20)
        return FIRST_YEAR <= year <= LAST_YEAR and 1 <= day <= 366

    def chain(self):
        """The place and the type of each blockette."""
        chain, last = [], 47
        (at,) = struct.unpack_from(self.order + "H", self.data, 46)
        while at:
            if at <= last or at + 4 > 512:
                raise Refused("4 Blockettes")
            kind, after = struct.unpack_from(self.order + "HH", self.data, at)
            if kind == 1000 and at + 8 > 512:
                raise Refused("4 Blockettes")
            chain.append((at, kind))
            last, at = at, after
        return chain

    def line(self):
        """What `check` prints of it."""
        codes = [shown(self.network, "?"), shown(self.station, "?"), shown(self.location, "-"), shown(self.channel, "-")]
        return " ".join(codes + [self.type, str(self.start), str(self.end), str(self.samples)])


def shown(code, space):
    return "".join(space if it == 32 else chr(it) if 33 <= it <= 126 else "?" for it in code)


def line_of(data):
    """What `check` prints of 512 bytes, after their number."""
    try:
        return Record(data).line()
    except Refused as why:
        return "refused %s" % why


# ---- records that are made


# Samples, rate factor and the blockette behind the one of type 1000, by the letter of the type that they give.
SORTS = {"D": (100, 100, None), "L": (10, 0, None), "E": (0, 1, 200), "C": (0, 1, 300), "T": (0, 1, 500), "O": (0, 1, 2000)}


def made(network, station, location="", channel="BHZ", kind="D", start=(2024, 60, 0, 0, 0, 0), samples=None, contents=b""):
    """A record of a type, in big order."""
    usual, factor, extra = SORTS[kind]
    year, day, hour, minute, second, fraction = start
    samples = usual if samples is None else samples
    codes = b"%-5b%-2b%-3b%-2b" % tuple(it.encode() for it in (station, location, channel, network))
    header = b"000001D " + codes + struct.pack(">HHBBBBH", year, day, hour, minute, second, 0, fraction)
    # Without samples there is no place of the first one.
    header += struct.pack(">HhhBBBBIHH", samples, factor, 1, 0, 0, 0, 1 + bool(extra), 0, 64 if samples else 0, 48)
    header += struct.pack(">HHBBBB", 1000, 56 if extra else 0, 11, 1, 9, 0) + (struct.pack(">HH", extra, 0) if extra else b"")
    return (header.ljust(64, b"\0") + contents).ljust(512, b"\0")


# Types of blockettes that are drawn.
DRAWN = (1000, 1000, 1000, 1000, 100, 200, 201, 300, 310, 320, 390, 395, 500, 2000)


def put(record, order, at, *numbers):
    """Puts numbers of two bytes, as far as the record goes."""
    for number in numbers:
        if 0 <= at and at + 2 <= 512:
            struct.pack_into(order + "H", record, at, number & 0xFFFF)
        at += 2


def drawn(draw):
    """A random record: one of twenty is noise, and of the others one of four has a few bytes changed."""

    def one_of(chances):
        return draw.randrange(chances) == 0

    def number(*usual):
        return draw.randrange(0x10000) if one_of(100) else draw.choice(usual)

    if one_of(20):
        return bytes(draw.getrandbits(8) for _ in range(512))
    order, record = draw.choice(">><"), bytearray(512)
    record[0:8] = draw.choice((b"000001D ", b"  0042R ", b"\0\0\0\0\0\0Q\0", b"999999M "))
    record[8:13] = draw.choice((b"APE  ", b"WLF  ", b"ABCDE", b"A    ", b" APE ", b"     "))
    record[13:20] = draw.choice((b"  ", b"00", b"1 ")) + draw.choice((b"BHZ", b"LHN", b"H Z")) + draw.choice((b"GE", b"XX", b"G "))
    if one_of(12):
        put(record, order, 20, number(1899, 2101, 2024), number(0, 367, 60))
    else:
        put(record, order, 20, number(1900, 1969, 1970, 2000, 2024, 2056, 2100), number(1, 60, 256, 257, 365, 366))
    late, times = (b"\x18\0\0", b"\0\x3c\0", b"\0\0\x3d"), (b"\0\0\0", b"\x17\x3b\x3c", b"\x0c\x1e\x0f")
    record[24:27] = draw.choice(late if one_of(12) else times)
    put(record, order, 28, 10_000 if one_of(20) else number(0, 5000, 9999), number(0, 1, 100, 412, 65_535))
    put(record, order, 32, number(0, 1, 3, 100, 32_767, 32_768, 65_526), number(0, 1, 7, 32_767, 32_768, 65_533))
    at = number(0, 47, 500, 504, 505, 508, 509) if one_of(6) else number(48, 48, 56, 64)
    put(record, order, 46, at)
    count = draw.randrange(7)
    for link in range(count + 1):
        # Mostly behind this one, now and then within it, at it or before it.
        after = 0 if link == count else at + draw.choice((0, -1, 1)) if one_of(13) else at + 8 + draw.randrange(60)
        put(record, order, at, draw.choice(DRAWN), after)
        if at + 6 < 512 and not one_of(12):
            record[at + 6] = 9
        if after <= at:
            break
        at = after
    if one_of(4):
        for _ in range(draw.randrange(1, 4)):
            record[draw.randrange(64 if one_of(2) else 512)] = draw.getrandbits(8)
    return bytes(record)
