"""Where an archive puts a record: by its stream and the day of its start; and records that have no place there."""

import kit
import scripted
from kit import record


def changed(*changes):
    """The record of GE APE with other bytes from some places on."""
    one = bytearray(record(1, "APE"))
    for place, becomes in changes:
        one[place : place + len(becomes)] = becomes
    return bytes(one)


def of(year, day):
    return "%d/GE/APE/BHZ.D/GE.APE..BHZ.D.%d.%03d" % (year, year, day)


LAST = (23, 59, 59, 9999)
# Records, and the files in which they stand.
PLACES = [
    ("a day", record(1, "APE"), of(2024, 60)),
    ("the last moment of a leap year", record(1, "APE", start=(2024, 366, *LAST)), of(2024, 366)),
    ("the last moment of a year", record(1, "APE", start=(2023, 365, *LAST)), of(2023, 365)),
    ("the last moment of a leap day", record(1, "APE", start=(2024, 60, *LAST)), of(2024, 60)),
    ("day 366 of a year that has none", record(1, "APE", start=(2023, 366, 0, 0, 0, 0)), of(2024, 1)),
    ("a second 60", record(1, "APE", start=(2023, 365, 23, 59, 60, 0)), of(2024, 1)),
    ("the first moment of 1970", record(1, "APE", start=(1970, 1, 0, 0, 0, 0)), of(1970, 1)),
    ("the last moment of 1969", record(1, "APE", start=(1969, 365, *LAST)), of(1969, 365)),
    ("29 February 2000", record(1, "APE", start=(2000, 60, 0, 0, 0, 0)), of(2000, 60)),
    ("the last moment of 2000", record(1, "APE", start=(2000, 366, *LAST)), of(2000, 366)),
    ("the first day of 1900", record(1, "APE", start=(1900, 1, 0, 0, 0, 0)), of(1900, 1)),
    ("the first moment of 2101", record(1, "APE", start=(2100, 366, 0, 0, 0, 0)), of(2101, 1)),
    ("a location, another network and a log", changed((13, b"01"), (18, b"X "), (32, b"\0\0")), "2024/X/APE/BHZ.L/X.APE.01.BHZ.L.2024.060"),
]
NO_PLACES = [
    ("a station of points", changed((8, b".. "))),
    ("a network that is a point", changed((18, b". "))),
    ("a slash", changed((14, b"/"))),
    ("a NUL", changed((15, b"\0"))),
    ("a channel of spaces", changed((15, b"   "))),
    ("no record", changed((0, b"x"))),
    ("a station that nobody wants", changed((9, b"Q"))),
    ("a network that nobody wants", changed((19, b"F"))),
]


class Places(scripted.Test):
    def archived(self, one):
        """What a reader of two stations makes of a packet."""
        server, = self.scripted(b"SeedLink v3\r\n\r\n" + kit.OK * 4, kit.packet(0, one) + b"END")
        return self.run_program("read", server.address, "X_APE", "GE_APE", "--fetch", "--archive", "sds")

    def files(self):
        return {path: data for path, data in kit.files_below("sds").items() if not path.startswith(".")}

    @kit.rows(PLACES)
    def test_place(self, one, path):
        ended = self.archived(one)
        self.assertEqual((ended.status, ended.said), (0, ""))
        self.assertEqual(self.files(), {path: one})

    @kit.rows(NO_PLACES)
    def test_no_place(self, one):
        ended = self.archived(one)
        self.assertEqual((ended.status, ended.said), (0, "seedlinkd: records without a place in the archive: 1\n"))
        self.assertEqual(self.files(), {})
