#!/usr/bin/env python3
"""Changes a server's access lists while two clients at two addresses of this machine are in a transfer.

`serve --reread` has to cut the one whose view changes, between two packets, and to go on with the other. Then it is given a text
that is not TOML and one with another capacity, and has to keep its lists. It prints what it saw, and fails if any of this does
not hold.
"""

import os
import re
import socket
import sys
import tempfile
import time

import load
from programs import RunningProgram, build, serve_words

CONFIG = """title = "Reload"

[[station]]
network = "GE"
code = "WLF"
description = "One station"
capacity = {capacity}
access = "{access}"
"""
EVERYBODY, ONE = "127.0.0.0/8", "127.0.0.1"
NEAR, FAR = "127.0.0.1", "127.0.0.2"
HALF = 1_000


def put(path, text):
    """Puts a file in place in one step."""
    with open(f"{path}.new", "w", encoding="utf-8") as file:
        file.write(text)
    os.rename(f"{path}.new", path)


def put_and_wait(path, text):
    """The same, and waits until the server has read it."""
    put(path, text)
    time.sleep(1)


def trickle(feed, records, path, text):
    """Sends records, some at a time, and puts a file in place when a third of them was sent."""
    for at in range(0, len(records), 10):
        if at * 3 // len(records) == 1 and text:
            put(path, text)
            text = None
        feed.sendall(b"".join(records[at : at + 10]))
        time.sleep(0.01)


def reader(port, address):
    """A client from an address that waits for what comes next to GE WLF."""
    client = socket.create_connection(("127.0.0.1", port), timeout=10, source_address=(address, 0))
    load.ask(client, b"STATION WLF GE\r", b"OK\r\n")
    load.ask(client, b"DATA\r", b"OK\r\n")
    client.sendall(b"END\r")
    return client


def taken(client, count):
    """The next bytes, up to so many or to the end of the connection."""
    got = b""
    while len(got) < count:
        piece = client.recv(1 << 16)
        if not piece:
            break
        got += piece
    return got


def is_refused(port, address):
    """Whether a client from an address does not see the station."""
    client = socket.create_connection(("127.0.0.1", port), timeout=10, source_address=(address, 0))
    with client:
        client.sendall(b"STATION WLF GE\r")
        return client.recv(16) == b"ERROR\r\n"


def told(holds, what):
    print(f"{'yes' if holds else 'NO ':4} {what}")
    return holds


def run(path, server, errors):
    """Plays it all. Whether all was as it has to be."""
    feed = load.dial(server.feed_port)
    near, far = reader(server.client_port, NEAR), reader(server.client_port, FAR)
    stream = load.stream_of(0, 3 * HALF)
    records = [load.record(it) for it in range(3 * HALF)]
    length = HALF * load.PACKET
    feed.sendall(b"".join(records[:HALF]))
    seen = [told(taken(client, length) == stream[:length], f"the client at {name} gets the first records")
            for client, name in ((near, NEAR), (far, FAR))]
    trickle(feed, records[HALF : 2 * HALF], path, CONFIG.format(capacity=8192, access=ONE))
    last = taken(far, 2 * length)
    is_cut = len(last) % load.PACKET == 0 and 0 < len(last) < length and stream[length:].startswith(last)
    seen.append(told(is_cut, f"the client at {FAR} gets whole packets up to its cut"))
    seen.append(told(taken(near, length) == stream[length : 2 * length], f"the client at {NEAR} gets the next records"))
    seen.append(told(is_refused(server.client_port, FAR), f"a client at {FAR} that comes now does not see the station"))
    put_and_wait(path, "title =")
    put_and_wait(path, CONFIG.format(capacity=4096, access=EVERYBODY))
    feed.sendall(b"".join(records[2 * HALF :]))
    seen.append(told(taken(near, length) == stream[2 * length :], "it goes on after two texts that are refused"))
    seen.append(told(is_refused(server.client_port, FAR), "and the lists are as they were"))
    server.program.kill()
    errors.seek(0)
    lines = errors.read().decode().splitlines()
    for line in ("seedlinkd: 20 Toml", "seedlinkd: 34 Different"):
        seen.append(told(line in lines, f"standard error has `{line}`"))
    report = re.compile(rf"seedlinkd: clients \d+, feeds 1, records {3 * HALF}, refused 0")
    seen.append(told(any(report.fullmatch(it) for it in lines), f"and a report of {3 * HALF} records"))
    return all(seen)


def main():
    build()
    with tempfile.TemporaryDirectory() as folder:
        config = f"{folder}/reload.toml"
        put(config, CONFIG.format(capacity=8192, access=EVERYBODY))
        words = serve_words(config, "--turns", "100000", "--reread", "3", "--report", "4")
        # into a file, since a pipe that nobody reads would soon be full
        with open(f"{folder}/errors", "w+b") as errors, RunningProgram(words, errors=errors) as server:
            return run(config, server, errors)


if __name__ == "__main__":
    sys.exit(0 if main() else 1)
