#!/usr/bin/env python3
"""Counts what a packet costs a server under load: instructions by callgrind, and system calls by strace. Called by bench/wire.sh.

It prints a line a figure, and fails if one is above its limit. The counts hardly depend on the machine.
"""

import re
import signal
import subprocess
import sys
import tempfile
import time

import load
from programs import RunningProgram, config_file, raise_descriptor_limit, serve_words
from wire import CONFIG

READERS = 16
IDLE = 5_000
SECONDS = 5


def told(figure, most, what):
    print(f"{figure:10.2f} {most:8d}  {what}", flush=True)
    return figure <= most


def each(config, idle=0):
    """The instructions that a packet takes of a server under load, beside so many idle clients."""
    records = 4_000
    with tempfile.NamedTemporaryFile(suffix=".callgrind") as out:
        before = ["valgrind", "--tool=callgrind", "-q", f"--callgrind-out-file={out.name}"]
        with RunningProgram(serve_words(config), before) as server:
            run = load.Load(*server.ports, READERS, records, idle)
            subprocess.run(["callgrind_control", "-z", str(server.program.pid)], capture_output=True, check=True)
            run.run(300)
            server.program.send_signal(signal.SIGINT)
            server.program.wait()
            run.close()
        total = int(re.search(rb"^(?:summary|totals): (\d+)", out.read(), re.M).group(1))
    return total / records / READERS


def taken(config, *options):
    """The instructions that a record takes of a server that nobody reads from."""
    records = 20_000
    with tempfile.NamedTemporaryFile(suffix=".callgrind") as out:
        before = ["valgrind", "--tool=callgrind", "-q", f"--callgrind-out-file={out.name}"]
        with RunningProgram(serve_words(config, *options), before, errors=subprocess.DEVNULL) as server:
            subprocess.run(["callgrind_control", "-z", str(server.program.pid)], capture_output=True, check=True)
            load.flood(server.feed_port, records)
            server.program.send_signal(signal.SIGINT)
            server.program.wait()
        total = int(re.search(rb"^(?:summary|totals): (\d+)", out.read(), re.M).group(1))
    return total / records


class Traced:
    """The system calls that a program makes for as long as a `with` lasts, and for a second before."""

    def __init__(self, program, *words):
        self.program, self.words = program, words

    def __enter__(self):
        self.out = tempfile.NamedTemporaryFile(suffix=".calls")
        words = ["strace", "-f", *self.words, "-o", self.out.name, "-p", str(self.program.pid)]
        self.tracer = subprocess.Popen(words, stderr=subprocess.DEVNULL)
        time.sleep(1)
        return self

    def __exit__(self, *_):
        self.tracer.terminate()
        self.tracer.wait()
        self.text = self.out.read().decode()
        self.out.close()

    def count(self, call):
        """How often it made a call, by the table of `strace -c`; `total` is all calls."""
        return sum(int(line.split()[3]) for line in self.text.splitlines() if line.split()[-1:] == [call])


def under_load(config):
    """Write calls for 16 packets, and read calls for 16 records."""
    records = 20_000
    with RunningProgram(serve_words(config)) as server:
        run = load.Load(*server.ports, READERS, records)
        with Traced(server.program, "-c") as traced:
            run.run()
        run.close()
    writes, reads = traced.count("sendto") + traced.count("write"), traced.count("recvfrom") + traced.count("read")
    return writes / (READERS * records / 16), reads / (records / 16)


def waits_between(calls):
    """How many polls that may wait a server made between the reading of a record and the sending of its packet."""
    lines = calls.splitlines()
    read = next(at for at, line in enumerate(lines) if "recvfrom(" in line and line.rstrip().endswith("= 512"))
    sent = next(at for at, line in enumerate(lines) if at > read and "sendto(" in line)
    return sum("epoll_wait(" in line and not re.search(r", 0\) += ", line) for line in lines[read:sent])


def at_rest(config):
    """System calls a second with 1,000 clients that wait, and waits between a record that comes alone and its packet."""
    with RunningProgram(serve_words(config)) as server:
        idle = [load.idle_client(server.client_port) for _ in range(1_000)]
        waiting, feed = load.reader(server.client_port), load.dial(server.feed_port)
        time.sleep(0.5)
        with Traced(server.program, "-c") as counted:
            time.sleep(SECONDS)
        with Traced(server.program) as traced:
            feed.sendall(load.record(0))
            time.sleep(0.5)
        for client in [*idle, waiting, feed]:
            client.close()
    return counted.count("total") / (SECONDS + 1), waits_between(traced.text)


def main():
    raise_descriptor_limit()
    with config_file(CONFIG) as config:
        print(f"{'each':>10} {'at most':>8}  work")
        writes, reads = under_load(config)
        calm, waits = at_rest(config)
        alone, crowded = each(config), each(config, IDLE)
        plain, logged = taken(config), taken(config, "--log")
        good = [
            told(alone, 430, f"instructions, a packet handed on, {READERS} readers"),
            told(crowded, int(alone * 1.3), f"the same with {IDLE} idle clients"),
            told(plain, 1_300, "instructions, a record of a flood that nobody reads"),
            told(logged, int(plain * 1.05), "the same with --log"),
            told(writes, 1, "write calls for 16 packets"),
            told(reads, 1, "read calls for 16 records"),
            told(calm, 20, "system calls a second with 1,000 idle clients"),
            told(waits, 0, "waits between a record that comes alone and its packet"),
        ]
    sys.exit(0 if all(good) else 1)


if __name__ == "__main__":
    main()
