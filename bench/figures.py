#!/usr/bin/env python3
"""Counts the program's instructions by callgrind, and its memory, and prints a table, a line a figure: the figure, the most that is
allowed, what was done, and what it is compared with. It fails if a figure is above its limit.

    bench/figures.py [WORDS ..]

A figure is the difference of two runs of which one does more, so that starting and ending the program doesn't count. Most are of
`seedlinkd replay`: what a line of a script costs, from reading it to writing what was taken in hexadecimal digits. With WORDS only the
rows are counted whose text contains one of them, as `bench/figures.py STATION 'a reload'`. It needs valgrind.
"""

import functools
import itertools
import os
import re
import subprocess
import sys
import tempfile
from dataclasses import dataclass
from typing import Callable

from programs import PROGRAM, TOP, RunningProgram, build, serve_words

RECORDS = f"{TOP}/examples/records/records.mseed"
ISLAND = f"{TOP}/examples/island.toml"
TIMES = "TIME 2024,2,29,0,0,0 2024,2,29,0,0,10"
ROUNDS = 1_000
CLIENTS = 10_000
FOLDER = tempfile.TemporaryDirectory()
numbers = itertools.count()

# ---- what is counted of one run


@functools.cache
def instructions(*words):
    """The instructions of a run of the program with these words."""
    callgrind = ["valgrind", "--tool=callgrind", f"--callgrind-out-file={FOLDER.name}/out"]
    run = subprocess.run([*callgrind, PROGRAM, *words], stdout=subprocess.DEVNULL, stderr=subprocess.PIPE, text=True, check=True)
    return int(re.search(r"Collected : (\d+)", run.stderr).group(1))


PEAK = """import resource, subprocess, sys
subprocess.run(sys.argv[1:], check=True, stdout=subprocess.DEVNULL)
print(resource.getrusage(resource.RUSAGE_CHILDREN).ru_maxrss)"""


@functools.cache
def peak(*words):
    """The most memory, in bytes, that a run of the program had at once."""
    run = subprocess.run([sys.executable, "-c", PEAK, PROGRAM, *words], stdout=subprocess.PIPE, check=True)
    return int(run.stdout) * 1_024


def per(more, less, count):
    """What each of so many takes, of what two runs differ by."""
    return (more - less) // count


# ---- files that the program reads


def file_of(text):
    """The path of a new file with that text."""
    path = f"{FOLDER.name}/file{next(numbers)}"
    with open(path, "w", encoding="ascii") as file:
        file.write(text)
    return path


def code(place):
    """The code of the station at a place: 00000, 00001 and so on."""
    return f"{place:05}"


@functools.cache
def config(small=0, large=0, capacity=1, access=None, lists=None, host=1):
    """The path of a configuration of stations of GE: first those that hold one record, and then those that hold so many. Each has the
    list that ACCESS says, a function of its place, or the server's."""
    text = 'title = "Bench"\nmax_connections = 10000\naccess = "0.0.0.0/0"\n'
    for place in range(small + large):
        held = 1 if place < small else capacity
        text += f'[[station]]\nnetwork = "GE"\ncode = "{code(place)}"\ndescription = "Bench"\ncapacity = {held}\n'
        own = access(place) if access else None
        if own is not None:
            text += f'access = "{own}"\n'
        elif lists is not None and place < lists:
            text += f'access = "0.0.0.0/0 192.168.0.{host}"\n'
    return file_of(text)


def arrive(place, channel="BHZ"):
    """The line by which a record arrives at the station at a place."""
    return f"arrive GE {code(place)} -- {channel} 2024,60,0,0,0,0 100"


def full(places, capacity):
    """Records that fill the rings of these stations, by turns."""
    return [arrive(place) for _ in range(capacity) for place in places]


def asking(client, places, patterns=(), action="FETCH"):
    """A client opens and asks for these stations, and takes all answers."""
    lines = [f"open 10.0.{client // 250}.{client % 250 + 1}"]
    for place in places:
        said = [f"STATION {code(place)} GE", *(f"SELECT {it}" for it in patterns), action]
        lines += [it for one in said for it in (f"line {client} {one}", f"take {client} 520")]
    return [*lines, f"line {client} END"]


def played(config_path, before, repeated, times):
    """The instructions of a script that has the lines of REPEATED so many times, after those of BEFORE."""
    return instructions("replay", config_path, script_of(tuple(before), tuple(repeated), times))


@functools.cache
def script_of(before, repeated, times):
    """The path of such a script."""
    return file_of("\n".join([*before, *repeated * times]) + "\n")


def each(config_path, before, repeated, times=ROUNDS):
    """What the lines of REPEATED take together, once they were played so many times before."""
    more, less = (played(config_path, before, repeated, it) for it in (2 * times, times))
    return per(more, less, times)


# ---- figures of the server


def said(*lines):
    """Lines of a client in a negotiation, each with the taking of its answer."""
    turns = [it for line in lines for it in (f"line 0 {line}", "take 0 520")]
    return lambda: each(config(small=3), ["open 10.0.0.7"], turns)


def garbage():
    """A piece of 1,024 bytes without an end of line."""
    return each(config(small=3), ["open 10.0.0.7"], [f"bytes 0 {'41' * 1_024}"])


def arriving(stations, capacity):
    """A record that arrives at the last of so many stations, whose ring is full."""
    last = stations - 1
    return lambda: each(config(small=last, large=1, capacity=capacity), full([last], capacity), [arrive(last)])


def fetched(requests, capacity):
    """A packet that is taken by a client with so many requests. Records come round, so the rings stay full."""
    places = range(requests)
    before = [*full(places, capacity), *asking(0, places)]
    return lambda: each(config(large=requests, capacity=capacity), before, ["take 0 520"])


def idle():
    """A take that finds nothing, of 32 requests over full rings."""
    places = range(32)
    before = [*full(places, 1_024), *asking(0, places, action="DATA")]
    return each(config(large=32, capacity=1_024), before, ["take 0 520"])


def passed():
    """A take after 1,000 records that the client's pattern does not let pass."""
    before = asking(0, [0], ["HHZ"], "DATA")
    repeated = full([0], 1_000)
    with_take = each(config(large=1, capacity=2_000), before, [*repeated, "take 0 520"], 10)
    return with_take - each(config(large=1, capacity=2_000), before, repeated, 10)


def unwanted(said_lines):
    """A record of a full ring of 65,536, for a client that wants none of them."""
    capacity = 65_536

    def asked(clients):
        lines = []
        for client in range(clients):
            lines += [f"open 10.0.0.{client + 1}", f"line {client} STATION 00000 GE", f"take {client} 520"]
            lines += [it for line in said_lines for it in (f"line {client} {line}", f"take {client} 520")]
            lines += [f"line {client} END", f"take {client} 520"]
        return lines

    records = [arrive(0, channel) for _ in range(capacity // 4) for channel in ("BHZ", "BHN", "BHE", "BHZ")]
    runs = [played(config(large=1, capacity=capacity), [*records, *asked(count)], [], 0) for count in (12, 2)]
    return lambda: per(*runs, 10 * capacity)


# Codes that don't exist: in the network of all stations before, between and after them, and in other networks.
UNKNOWN = ("00000 GA", "0000A GE", "0003A GE", "77777 GE", "00003 AA", "00003 XX")


def every_second(place):
    """The list of a station of which every second one is hidden from whoever asks."""
    return "192.168.0.1" if place % 2 else None


def hidden(stations):
    """Codes of hidden stations: of the first, of one in the middle and of the last."""
    return tuple(f"{code(station)} GE" for station in (1, stations // 2 - 1, stations - 1))


def refused(stations, codes):
    """STATION of codes, by a client to whom every second one of so many stations is hidden, and the taking of its answer."""
    turns = [f"line 0 STATION {codes}", "take 0 520"]
    return each(config(small=stations, access=every_second), ["open 10.0.0.7"], turns)


def apart(stations, *all_codes):
    """By how much the figures of codes differ at most."""
    figures = [refused(stations, codes) for codes in all_codes]
    return max(figures) - min(figures)


def named():
    """STATION of the 200th of 1,024 stations that a client names."""
    names = [it for place in range(200) for it in (f"line 0 STATION {code(place)} GE", "take 0 520")]
    runs = [played(config(small=1_024), ["open 10.0.0.7", *names[: 2 * count]], [], 0) for count in (200, 199)]
    return per(*runs, 1)


def lone(stations):
    """A record that comes alone at one of so many stations that a client follows, its packet, and a take that finds nothing."""
    before = asking(0, range(stations), action="DATA") + ["take 0 520"]
    turns = [it for place in range(stations) for it in (arrive(place), "take 0 520", "take 0 520")]
    return lambda: each(config(small=stations), before, turns, max(1, ROUNDS // stations)) // stations


def visit():
    """A client that opens and closes."""
    turns = [it for client in range(ROUNDS) for it in ("open 10.0.0.7", f"close {client}")]
    again = [it for client in range(2 * ROUNDS) for it in ("open 10.0.0.7", f"close {client}")]
    return per(played(config(small=3), again, [], 0), played(config(small=3), turns, [], 0), ROUNDS)


def waiting():
    """What an arrival takes more while clients wait at another station."""
    crowd = [it for client in range(CLIENTS) for it in (*asking(client, [0], action="DATA"), f"take {client} 520")]
    path = config(small=2)
    return each(path, crowd, [arrive(1)]) - each(path, [], [arrive(1)])


def reload_with(clients, lists):
    """A reload at which the lists of so many of 1,024 stations change."""
    texts = []
    for host in (2, 1):
        with open(config(small=1_024, lists=lists, host=host), encoding="ascii") as file:
            texts.append("reload " + file.read().encode().hex())
    crowd = [f"open 10.{client // 62_500}.{client // 250 % 250}.{client % 250}" for client in range(clients)]
    return each(config(small=1_024, lists=lists), crowd, texts, 1) // 2


def reload_each(lists):
    """What such a reload takes for each of 10,000 clients for whom nothing changes."""
    return lambda: per(reload_with(CLIENTS, lists), reload_with(0, lists), CLIENTS)


# ---- what clients keep


def open_client():
    """The bytes of a client that is open, the line of the script included."""
    opened = [file_of("".join(f"open 10.0.{client // 250}.{client % 250}\n" for client in range(count))) for count in (CLIENTS, 1)]
    return per(*(peak("replay", config(small=3), path) for path in opened), CLIENTS)


def visited():
    """The bytes that stay of a client that came and went, two lines of the script included."""

    def visits(count):
        return file_of("".join(f"open 10.0.0.7\nclose {client}\n" for client in range(count)))

    return per(*(peak("replay", config(small=3), visits(count)) for count in (101_000, 1_000)), 100_000)


# ---- figures of the reader


def sent_records(stations, count):
    """A file of so many records of stations by turns, each a second after the one before."""
    path = f"{FOLDER.name}/sent{stations}-{count}"
    if not os.path.exists(path):
        with open(f"{TOP}/examples/records/records.mseed", "rb") as file:
            one = bytearray(file.read(512))
        with open(path, "wb") as file:
            for number in range(count):
                second = number // stations
                one[8:20] = f"{code(number % stations)}  BHZGE".encode()
                one[20:30] = (2024).to_bytes(2, "big") + (60).to_bytes(2, "big") + bytes(
                    [second // 3_600 % 24, second // 60 % 60, second % 60, 0, 0, 0])
                file.write(one)
    return path


@functools.cache
def reading(stations, wants, count, archive):
    """The instructions of `read --fetch` of so many records of stations by turns, held by a server."""
    path = config(large=max(stations, wants), capacity=min(65_536, count))
    with RunningProgram(serve_words(path)) as server:
        feed = [PROGRAM, "feed", f"127.0.0.1:{server.feed_port}", sent_records(stations, count)]
        subprocess.run(feed, check=True, stdout=subprocess.DEVNULL, stderr=subprocess.DEVNULL)
        words = ["read", f"127.0.0.1:{server.client_port}", *(f"GE_{code(place)}" for place in range(wants)), "--fetch"]
        with tempfile.TemporaryDirectory(dir=FOLDER.name) as folder:
            return instructions(*words, *(["--archive", folder] if archive else []))


def packet(stations, wants=None, archive=False):
    """A packet that is read and listed, and with ARCHIVE put into an archive."""
    runs = (8 * ROUNDS, 4 * ROUNDS)
    return lambda: per(*(reading(stations, wants or stations, count, archive) for count in runs), 4 * ROUNDS)


# ---- figures of the other jobs


@functools.cache
def records_file(times):
    """A file with the records of the examples so many times."""
    path = f"{FOLDER.name}/records{times}"
    with open(RECORDS, "rb") as records, open(path, "wb") as file:
        file.write(records.read() * times)
    return path


def checked():
    """A record of `seedlinkd check`. The file of the examples has 69."""
    return per(*(instructions("check", records_file(times)) for times in (30, 15)), 15 * 69)


def served(turns):
    """`seedlinkd serve` of 1,024 stations for so many turns, after each of which it reads its configuration again."""
    nowhere = ("--listen", "127.0.0.1:0", "--feed", "127.0.0.1:0")
    return instructions("serve", config(small=1_024, lists=1_024), *nowhere, "--turns", str(turns), "--reread", "1")


def reread():
    """A reread of a text that did not change."""
    return per(served(20), served(10), 10)


STATIONS = ("GE APE", "GE WLF", "XX APE")
CHANNELS = ("BHZ", "BHN", "BHE")


def opening(client):
    """The lines with which a client opens: every second asks for all records of one station, the others for those of three that
    pass a pattern."""
    yield f"open 10.0.0.{client + 1}"
    if client % 2:
        yield f"line {client} DATA"
        return
    for station in STATIONS:
        network, name = station.split()
        for line in (f"STATION {name} {network}", "SELECT BH?", "DATA"):
            yield f"line {client} {line}"
            yield f"take {client} 520"
    yield f"line {client} END"


def script():
    """The lines of a script: 100 clients open; then records come by turns at three stations, and after each nine clients take."""
    for client in range(100):
        yield from opening(client)
    for record in itertools.count():
        minute, second = divmod(record, 60)
        at = record % 3
        yield f"arrive {STATIONS[at]} -- {CHANNELS[at]} 2024,60,0,{minute % 60},{second},0 100"
        for step in range(9):
            yield f"take {(record * 9 + step) % 100} 520"


@functools.cache
def replayed(events):
    """`seedlinkd replay` of so many events."""
    return instructions("replay", ISLAND, file_of("".join(f"{line}\n" for line in itertools.islice(script(), events))))


def event():
    """An event of `seedlinkd replay`."""
    return per(replayed(20_000), replayed(10_000), 10_000)


def percent(figure, share):
    """A share of another figure, in hundredths."""
    return lambda: figure() * share // 100


# ---- the table


@dataclass(frozen=True)
class Row:
    """A work: the most that is allowed, which may depend on another figure; what is done; the figure; what it is compared with."""

    most: "int | Callable[[], int]"
    what: str
    figure: Callable[[], int]
    compared: "str | Callable[[], str]" = ""

    def print(self):
        """Counts it and prints its line. Whether the figure is within its limit."""
        figure = self.figure()
        most = self.most() if callable(self.most) else self.most
        compared = self.compared() if callable(self.compared) else self.compared
        print(f"{figure:10d} {most:10d}  {self.what:72} {compared}", flush=True)
        return figure <= most


small_ring, large_ring = functools.cache(arriving(1_024, 4_096)), functools.cache(arriving(1_024, 65_536))
one_packet, one_request = functools.cache(packet(1)), functools.cache(fetched(1, 16_384))

ROWS = (
    # lines of a script, from reading them to writing what was taken
    Row(6_500, "HELLO and the taking of its answer", said("HELLO")),
    Row(14_000, "STATION, TIME with two times, and the taking of the answers", said("STATION 00001 GE", TIMES)),
    Row(42_000, "a piece of 1,024 bytes without an end of line", garbage),
    Row(5_300, "a record at one of 1,024 stations, a full ring of 4,096", small_ring),
    Row(percent(small_ring, 105), "the same, a full ring of 65,536", large_ring, "at most 1.05 times that"),
    Row(10_000, "a packet that is taken, FETCH of a full ring of 16,384", one_request),
    Row(percent(one_request, 102), "the same with 64 requests, full rings of 256", fetched(64, 256), "at most 1.02 times that"),
    Row(percent(one_request, 102), "the same with 255 requests, full rings of 64", fetched(255, 64), "at most 1.02 times that"),
    Row(2_300, "a take that finds nothing, 32 requests, full rings of 1,024", idle),
    Row(3_700, "a take after 1,000 records that its pattern does not let pass", passed),
    # what strangers ask for, and how a station is found
    Row(20, "a record of a full ring of 65,536 that none of 64 patterns lets pass",
        lambda: unwanted([*(f"SELECT HH{chr(65 + it % 26)}.{'DEF'[it // 26]}" for it in range(64)), "FETCH"])()),
    Row(20, "the same, of a TIME that is still to come", lambda: unwanted(["TIME 2034,1,1,0,0,0"])()),
    Row(6_500, "STATION of the 200th of 1,024 stations that a client names, its answer taken", named),
    Row(7_000, "STATION of one of 1,024 that is hidden, its answer taken", lambda: refused(1_024, "00003 GE")),
    *(Row(0, f"STATION of {stations} with a network, hidden, not there, or in another network: apart",
        functools.partial(apart, stations, *hidden(stations), *UNKNOWN)) for stations in (8, 64, 1_024)),
    *(Row(0, f"the same without a network, of {stations}",
        functools.partial(apart, stations, "00003", "00001", "0003A", "77777", "AAAAA")) for stations in (8, 64, 1_024)),
    # a record that comes alone, and clients that wait
    Row(17_500, "a lone record at one of 255 stations that one client follows, and its packet", lone(255),
        lambda: f"at one of one: {lone(1)()}"),
    Row(14_500, "a client that opens and closes", visit),
    Row(1_500, "more for a record while 10,000 clients wait at another station", waiting),
    # a reload for clients of whom nothing changes
    Row(300, "a reload, a client of 10,000 for whom nothing changes, 1 of 1,024 lists", reload_each(1)),
    Row(15_000, "the same, 256 of 1,024 lists", reload_each(256)),
    Row(30_000, "the same, 257 of 1,024 lists: all stations are looked at", reload_each(257)),
    # what clients keep
    Row(12_288, "bytes of a client that is open, by the peak of 10,000", open_client),
    Row(2_048, "bytes that stay of a client that came and went, by the peak of 100,000", visited, "two lines of the script included"),
    # the reader
    Row(1_550, "a packet that is read and listed", one_packet),
    Row(percent(one_packet, 110), "the same with 255 WANTs, their stations by turns", packet(255)),
    Row(3_700, "a packet of one station that is read into an archive", packet(1, archive=True)),
    Row(4_100, "the same of three stations by turns", packet(3, archive=True)),
    Row(13_000, "the same of 64 stations by turns", packet(64, archive=True)),
    # the other jobs
    Row(4_000, "seedlinkd check, a record read out of the file and its line written", checked, "libmseed, the same: about 5,800"),
    Row(1_000_000, "a reread of 1,024 stations whose text did not change", reread),
    Row(12_000, "seedlinkd replay with 100 clients, an event from line to output", event),
    Row(lambda: replayed(10_000) * 23 // 10_000, "seedlinkd replay of 20,000 events, in thousands", lambda: replayed(20_000) // 1_000,
        lambda: f"of 10,000 events: {replayed(10_000) // 1_000}, and at most 2.30 times that"),
)


def main():
    if "PROGRAM" not in os.environ:
        build()
    wanted = [row for row in ROWS if not sys.argv[1:] or any(word in row.what for word in sys.argv[1:])]
    print(f"{'each':>10} {'at most':>10}  {'work':72} compared with")
    return 0 if all([row.print() for row in wanted]) else 1


if __name__ == "__main__":
    sys.exit(main())
