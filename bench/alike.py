#!/usr/bin/env python3
"""Tries to tell by time which of some stations are hidden and which don't exist.

    bench/alike.py [ROUNDS]

A client asks for 64 stations, of which 32 are hidden from it and 32 don't exist, in batches of 60 lines: 2,000 batches for each, in
an order by chance, which are 120,000 questions. A code that doesn't exist follows each hidden one.
A station's time is the mean of its fastest half. The threshold that parts the two kinds best is right for so many of 100
stations, and that is printed for each round. Beside it stands the same for 64 codes none of which exists, in pairs too: what chance
alone is good for. It fails if the median of the rounds, 5 of them by default, is above 60 and above that of chance.
"""

import random
import statistics
import sys
import time

import load
from programs import RunningProgram, build, config_file, serve_words

CODES = 32
LINES = 60
BATCHES = 2_000
MOST = 60

# By fours: a station that the client sees, one that is hidden, and two codes that don't exist.
CONFIG = 'title = "Alike"\n' + "".join(
    f'[[station]]\nnetwork = "GE"\ncode = "H{place:04}"\ndescription = "Alike"\ncapacity = 1\n'
    + ('access = "192.168.0.1"\n' if place % 4 else "")
    for place in range(4 * CODES)
    if place % 4 < 2
)
HIDDEN, UNKNOWN, OTHERS = ([f"H{place:04}" for place in range(kind, 4 * CODES, 4)] for kind in (1, 2, 3))


def batch(client, code):
    """Asks for a station so many times, and answers how long that took, in nanoseconds."""
    lines = b"STATION %s GE\r" % code.encode() * LINES
    began = time.perf_counter_ns()
    client.sendall(lines)
    left = len(b"ERROR\r\n") * LINES
    while left:
        left -= len(client.recv(left))
    return time.perf_counter_ns() - began


def times_of(client, codes):
    """The time of each of some stations: the mean of the fastest half of its batches."""
    seen = {code: [] for code in codes}
    order = [code for code in codes for _ in range(BATCHES)]
    random.shuffle(order)
    for code in order:
        seen[code].append(batch(client, code))
    return [statistics.mean(sorted(seen[code])[: BATCHES // 2]) for code in codes]


def told_apart(first, others):
    """How many of 100 the threshold that parts two lists of times best is right for."""
    most = 0
    for threshold in (*first, *others):
        below = sum(it <= threshold for it in first) + sum(it > threshold for it in others)
        most = max(most, below, len(first) + len(others) - below)
    return 100 * most / (len(first) + len(others))


def main():
    rounds = int(sys.argv[1]) if len(sys.argv) > 1 else 5
    build()
    hidden, chance = [], []
    with config_file(CONFIG) as config, RunningProgram(serve_words(config)) as program:
        client = load.dial(program.ports[0])
        for _ in range(rounds):
            times = times_of(client, HIDDEN + UNKNOWN)
            hidden.append(told_apart(times[:CODES], times[CODES:]))
            times = times_of(client, UNKNOWN + OTHERS)
            chance.append(told_apart(times[:CODES], times[CODES:]))
            print(f"{hidden[-1]:5.1f} of 100 are told apart, by chance {chance[-1]:5.1f}", flush=True)
    told, by_chance = statistics.median(hidden), statistics.median(chance)
    print(f"{told:5.1f} in the middle, at most {MOST} or what chance is good for, {by_chance:.1f}")
    sys.exit(0 if told <= max(MOST, by_chance) else 1)


if __name__ == "__main__":
    main()
