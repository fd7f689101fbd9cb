#!/usr/bin/env python3
"""Records of stations GE S00, GE S01 .., for test_many_servers.py.

    tests/many_records.py config STATIONS COUNT        a configuration of so many stations, each of which holds so many records
    tests/many_records.py make STATIONS COUNT RATE     so many records of each of these stations, by turns, so many a second
    tests/many_records.py wants STATIONS LINES         the wants with which a reader goes on after the lines of `seedlinkd read`
    tests/many_records.py check STATIONS COUNT LINES   whether the lines have each record of each station once, in order, by number

STATIONS is a range, as 0-49.
"""

import sys
import time

RECORD = 512
FIRST = 0xFFFC00
NUMBERS = 1 << 24
CHUNK = 50
# 2024-02-29T00:00:00, in units of 0.0001 s since 1970; each record begins ten seconds after the one before.
BEGIN, STEP = 17_091_648_000_000, 100_000
CODE = "S{:02d}"
STATION = '\n[[station]]\nnetwork = "GE"\ncode = "{}"\ndescription = ""\ncapacity = {}\nfirst = "{:06X}"\n'
AFTER_TIME = b"\x00\x00\x03\xe8\x00\x64\x00\x01\x00\x00\x00\x01\x00\x00\x00\x00\x00\x40\x00\x30\x03\xe8\x00\x00\x0b\x01\x09\x00"


def stations_in(text):
    """The codes of a range of stations."""
    first, last = (int(word) for word in text.split("-"))
    return [CODE.format(number) for number in range(first, last + 1)]


def record(code, at):
    """The record of a station that is made as the `at`-th, from 0 on."""
    minutes, seconds = divmod(at * 10, 60)
    hours, minutes = divmod(minutes, 60)
    start = bytes([2024 >> 8, 2024 & 255, 0, 60, hours, minutes, seconds, 0])
    return (b"000001D " + code.encode().ljust(5) + b"  BHZGE" + start + AFTER_TIME).ljust(RECORD, b"\0")


def config(stations, count):
    """Prints a configuration."""
    print('title = "Many servers"\nmax_connections = 100')
    for code in stations_in(stations):
        print(STATION.format(code, count, FIRST))


def make(stations, count, rate):
    """Writes records."""
    codes, start = stations_in(stations), time.monotonic()
    total = len(codes) * int(count)
    for done in range(0, total, CHUNK):
        time.sleep(max(0, start + done / int(rate) - time.monotonic()))
        chunk = range(done, min(done + CHUNK, total))
        sys.stdout.buffer.write(b"".join(record(codes[it % len(codes)], it // len(codes)) for it in chunk))
        sys.stdout.buffer.flush()


def last_numbers(path):
    """The number of the last packet of each station, by its code."""
    with open(path, encoding="ascii") as lines:
        return {words[2]: int(words[0], 16) for words in map(str.split, lines)}


def wants(stations, path):
    """Prints a word for each station."""
    last = last_numbers(path)
    for code in stations_in(stations):
        print(f"GE_{code}@{(last.get(code, FIRST - 1) + 1) % NUMBERS:06X}")


def check(stations, count, path):
    """Fails at the first line that is not that of the next record of its station, or if one is missing at the end."""
    came = dict.fromkeys(stations_in(stations), 0)
    with open(path, encoding="ascii") as lines:
        for line in lines:
            number, _, code, *_, start, _, _ = line.split()
            at = came[code]
            if int(number, 16) != (FIRST + at) % NUMBERS or int(start) != BEGIN + at * STEP:
                raise SystemExit(f"{path}: not record {at} of {code}: {line.strip()}")
            came[code] += 1
    missing = sum(int(count) - at for at in came.values())
    if missing:
        raise SystemExit(f"{path}: {missing} records are missing")


if __name__ == "__main__":
    {"config": config, "make": make, "wants": wants, "check": check}[sys.argv[1]](*sys.argv[2:])
