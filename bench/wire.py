#!/usr/bin/env python3
"""Measures what a server hands on in a second, beside a bare fan-out, and what idle clients cost. Called by bench/wire.sh.

    bench/wire.py [FANOUT]

FANOUT is a program that is called with a client port, a feed port and, to write packet by packet, the word `single`. It takes
records of 512 bytes at the feed port and sends each as a packet to every client that said END. Without it the server alone is
measured. Then it measures a flood of records that nobody reads, without and with `--numbers`, and at last one reader that asks for
the full rings of 255 stations, beside a process that writes as many bytes to a connection and does nothing else.
"""

import os
import socket
import statistics
import sys
import tempfile
import time

import load
from programs import RunningProgram, config_file, raise_descriptor_limit, serve_words

CONFIG = """title = "Wire"
max_connections = 6000

[[station]]
network = "GE"
code = "WLF"
description = "One station"
capacity = 65536
"""
PACKETS = 320_000
ROUNDS = 15
STATIONS = 255
HELD = 256
FLOOD = 200_000
FLOODS = 10


def measured(words, readers, idle):
    """Packets a second, and the microseconds of a processor that a packet took, of a program that hands records on."""
    records = min(20_000, PACKETS // readers)
    with RunningProgram(words) as program:
        run = load.Load(*program.ports, readers, records, idle)
        before = program.cpu_seconds()
        took = run.run()
        used = program.cpu_seconds() - before
        run.close()
    packets = readers * records
    return packets / took, used / packets * 1e6


def medians(programs, readers, idles):
    """The medians of each program with each number of idle clients, over rounds in which all of them have their turn."""
    seen = {(name, idle): [] for name in programs for idle in (idles if name == "serve" else [0])}
    for _ in range(ROUNDS):
        for (name, idle), figures in seen.items():
            figures.append(measured(programs[name], readers, idle))
    return {key: tuple(map(statistics.median, zip(*figures))) for key, figures in seen.items()}


def print_table(programs):
    """Measures all and prints a line each."""
    print(f"{'packets/s':>12} {'us each':>8} {'to serve':>7}  what")
    for readers, idles in ((1, [0]), (16, [0, 500, 5000]), (64, [0]), (1000, [0])):
        rows = medians(programs, readers, idles)
        rate = rows["serve", 0][0]
        for (name, idle), (packets, used) in rows.items():
            what = f"{name}, {readers} reader{'s' * (readers > 1)}" + (f", {idle} idle" if idle else "")
            print(f"{packets:12.0f} {used:8.2f} {packets / rate:7.2f}  {what}", flush=True)


def many_stations():
    """A configuration of 255 stations."""
    stations = "".join(
        f'\n[[station]]\nnetwork = "GE"\ncode = "W{at:03}"\ndescription = "One of many"\ncapacity = {HELD}\n' for at in range(STATIONS)
    )
    return 'title = "Wire"\n' + stations


def fetched(config):
    """Packets a second, and the microseconds of a processor that a packet took, of a server whose rings are full."""
    with RunningProgram(serve_words(config)) as program:
        load.fill(program.ports[1], STATIONS, HELD)
        client = load.fetcher(program.ports[0], STATIONS)
        before, start = program.cpu_seconds(), time.monotonic()
        client.sendall(b"END\r")
        taken = load.take_all(client)
        took, used = time.monotonic() - start, program.cpu_seconds() - before
    if taken != STATIONS * HELD * load.PACKET + len(b"END"):
        raise SystemExit(f"{taken} bytes were fetched")
    packets = STATIONS * HELD
    return packets / took, used / packets * 1e6


def written():
    """The same of a process that writes as many bytes, and does nothing else."""
    packets = STATIONS * HELD
    with socket.create_server(("127.0.0.1", 0)) as listener:
        child = os.fork()
        if child == 0:
            with listener.accept()[0] as peer:
                whole = bytes(packets * load.PACKET)
                peer.recv(1)
                before = time.process_time()
                peer.sendall(whole)
                used = time.process_time() - before
                peer.sendall(b"%.9f" % used)
            os._exit(0)
        client = load.dial(listener.getsockname()[1])
        time.sleep(0.2)
        start = time.monotonic()
        client.sendall(b"G")
        load.take_all(client, packets * load.PACKET)
        took = time.monotonic() - start
        used = float(client.recv(64))
        os.waitpid(child, 0)
    return packets / took, used / packets * 1e6


def print_fetch(config):
    """Measures a reader of all stations, and prints a line, and one of what bare writes take."""
    seen = {"serve, FETCH of 255 stations": [], "bare writes": []}
    for _ in range(ROUNDS):
        seen["serve, FETCH of 255 stations"].append(fetched(config))
        seen["bare writes"].append(written())
    rows = {name: tuple(map(statistics.median, zip(*figures))) for name, figures in seen.items()}
    rate = rows["serve, FETCH of 255 stations"][0]
    for name, (packets, used) in rows.items():
        print(f"{packets:12.0f} {used:8.2f} {packets / rate:7.2f}  {name}", flush=True)


def print_flood(config):
    """Measures a flood of records that nobody reads, without and with numbers that are kept, and prints a line each."""
    seen = {"records a second of a flood": [], "the same with --numbers": []}
    for _ in range(ROUNDS):
        with tempfile.TemporaryDirectory() as folder:
            for name, options in zip(seen, ([], ["--numbers", f"{folder}/numbers"])):
                with RunningProgram(serve_words(config, *options)) as program:
                    seen[name].append(FLOOD * FLOODS / load.flood(program.ports[1], FLOOD, FLOODS))
    plain = statistics.median(seen["records a second of a flood"])
    for name, rates in seen.items():
        print(f"{statistics.median(rates):12.0f} {'':8} {statistics.median(rates) / plain:7.2f}  {name}", flush=True)


def fanout_words(path, *options):
    """The words that start a fan-out."""
    return lambda client_port, feed_port: [path, str(client_port), str(feed_port), *options]


def main():
    raise_descriptor_limit()
    with config_file(CONFIG) as config:
        programs = {"serve": serve_words(config)}
        if len(sys.argv) > 1:
            path = os.path.realpath(sys.argv[1])
            programs["fan-out"] = fanout_words(path)
            programs["fan-out, packet by packet"] = fanout_words(path, "single")
        print_table(programs)
        print_flood(config)
    with config_file(many_stations()) as config:
        print_fetch(config)


if __name__ == "__main__":
    main()
