#!/usr/bin/env python3
"""Measures how long a lone record takes from its sending until the last of 16 readers has it, beside a bare fan-out.

    bench/latency.py FANOUT

FANOUT is a program as bench/wire.py takes one. Both have their turn in each round, and a record is sent every two milliseconds. It
prints the median and the 99th percentile of each program, as the median over the rounds, and how many times those of the fan-out
the server's are, and fails if that is above its limit. The machine has to be quiet.
"""

import os
import statistics
import sys

import load
from programs import RunningProgram, build, config_file, raise_descriptor_limit, serve_words
from wire import CONFIG, fanout_words

READERS = 16
RECORDS = 1_000
ROUNDS = 15
MOST = 1.1


def quantiles(words):
    """The median and the 99th percentile, in milliseconds, of a run of a program."""
    with RunningProgram(words) as program:
        seen = load.lone_latencies(*program.ports, READERS, RECORDS)
    hundredths = statistics.quantiles(seen, n=100)
    return hundredths[49], hundredths[98]


def main():
    if len(sys.argv) != 2:
        raise SystemExit("usage: bench/latency.py FANOUT")
    raise_descriptor_limit()
    build()
    with config_file(CONFIG) as config:
        programs = {"serve": serve_words(config), "fan-out": fanout_words(os.path.realpath(sys.argv[1]))}
        runs = {name: [] for name in programs}
        for _ in range(ROUNDS):
            for name, words in programs.items():
                runs[name].append(quantiles(words))
    rows = {name: [statistics.median(column) for column in zip(*seen)] for name, seen in runs.items()}
    good = True
    for at, what in enumerate(("median", "99th percentile")):
        times = rows["serve"][at] / rows["fan-out"][at]
        good &= times <= MOST
        print(f"{rows['serve'][at]:8.3f} ms {rows['fan-out'][at]:8.3f} ms of the fan-out {times:6.2f} times, at most {MOST}  {what}")
    sys.exit(0 if good else 1)


if __name__ == "__main__":
    main()
