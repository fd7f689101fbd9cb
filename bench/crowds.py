#!/usr/bin/env python3
"""Measures what clients that sleep cost those that don't: clients that come and ask for a station while thousands are open, and lone
records on their way to readers while thousands follow another station.

    bench/crowds.py [ROW ..]

It starts servers on loopback and ends them, prints a line a figure, and fails if one is above its limit. The machine has to be quiet.
SCALE=0.05 tries it with few clients and no limits.
"""

import os
import statistics
import sys
import time

import load
from programs import RunningProgram, build, config_file, raise_descriptor_limit, serve_words

SCALE = float(os.environ.get("SCALE", "1"))
CONFIG = """title = "Crowds"
max_connections = 10000

[[station]]
network = "GE"
code = "WLF"
description = "One that is fed"
capacity = 65536

[[station]]
network = "GE"
code = "APE"
description = "One that sleeps"
capacity = 16
"""


def scaled(count):
    return max(2, int(count * SCALE))


def told(figure, most, what):
    print(f"{figure:10.2f} {most:8.2f}  {what}", flush=True)
    return figure <= most or SCALE < 1


def sleeper(port):
    """A client that follows the station of which nothing comes."""
    client = load.dial(port)
    load.ask(client, b"STATION APE GE\r", b"OK\r\n")
    load.ask(client, b"DATA\r", b"OK\r\n")
    client.sendall(b"END\r")
    return client


def newcomer(port):
    """A client that comes, says HELLO and STATION, and goes."""
    client = load.dial(port)
    client.sendall(b"HELLO\r")
    greeting = b""
    while greeting.count(b"\r\n") < 2:
        greeting += client.recv(512)
    load.ask(client, b"STATION WLF GE\r", b"OK\r\n")
    client.close()


def newcomers(words, sleepers):
    """The milliseconds of a processor of a client that comes and asks for a station while so many are open."""
    with RunningProgram(words) as server:
        asleep = [sleeper(server.client_port) for _ in range(sleepers)]
        count = scaled(2000)
        before = server.cpu_seconds()
        for _ in range(count):
            newcomer(server.client_port)
        used = server.cpu_seconds() - before
        for client in asleep:
            client.close()
    return used / count * 1e3


def latency(words, sleepers):
    """The median of the milliseconds from a lone record's sending until the last of 16 readers has it."""
    with RunningProgram(words) as server:
        asleep = [sleeper(server.client_port) for _ in range(sleepers)]
        seen = load.lone_latencies(*server.ports, 16, scaled(1000))
        for client in asleep:
            client.close()
    return statistics.median(seen)


def streamed(words, sleepers):
    """Packets a second to 16 readers while so many clients sleep, and the microseconds of a processor that a packet took."""
    records = scaled(40_000)
    with RunningProgram(words) as server:
        asleep = [sleeper(server.client_port) for _ in range(sleepers)]
        run = load.Load(*server.ports, 16, records)
        before = server.cpu_seconds()
        took = run.run()
        used = server.cpu_seconds() - before
        run.close()
        for client in asleep:
            client.close()
    return 16 * records / took, used / (16 * records) * 1e6


def by_turns(measure, few, many, rounds=5):
    """The medians of a measure with few and with many clients asleep, which have their turn in each round."""
    runs = {few: [], many: []}
    for _ in range(rounds if SCALE == 1 else 1):
        for count in runs:
            runs[count].append(measure(count))
    return [statistics.median(runs[count]) for count in (few, many)]


def row_newcomers(words):
    few, many = by_turns(lambda count: newcomers(words, count), scaled(100), scaled(8000))
    return told(many / few, 1.5, f"times {few:.3f} ms: a client that comes, HELLO and STATION, while 8,000 and not 100 are open")


def row_latency(words):
    none, many = by_turns(lambda count: latency(words, count), 0, scaled(5000))
    return told(many / none, 1.1, f"times {none:.3f} ms: a lone record to 16 readers, while 5,000 follow another station")


def row_stream(words):
    runs = {count: [] for count in (0, scaled(5000))}
    for _ in range(7 if SCALE == 1 else 1):
        for count, seen in runs.items():
            seen.append(streamed(words, count))
    (rate, cost), (rate_many, cost_many) = (map(statistics.median, zip(*seen)) for seen in runs.values())
    slower = told(rate / rate_many, 1 / 0.97, f"times fewer packets a second than {rate:.0f}: 16 readers, 5,000 asleep")
    return all([slower, told(cost_many / cost, 1.05, f"times {cost:.3f} us of a processor a packet, 5,000 asleep")])


ROWS = {"newcomers": row_newcomers, "latency": row_latency, "stream": row_stream}

if __name__ == "__main__":
    raise_descriptor_limit()
    build()
    with config_file(CONFIG) as config:
        print(f"{'figure':>10} {'at most':>8}  what")
        kept = [ROWS[name](serve_words(config)) for name in sys.argv[1:] or ROWS]
    sys.exit(0 if all(kept) else 1)
