#!/usr/bin/env python3
"""Runs a server for ten minutes under readers that come, go, reset and stall, and a feed that ends and comes again.

    bench/soak.py [SECONDS]

Each packet is checked: its record is the one that was fed under its number, no packet comes twice or out of order, and a
reader that keeps up misses none. After the first minute the server's memory may grow by 1 MiB at most, and once all clients
have left it has as many descriptors as before they came. It prints what was done and fails if any of this does not hold.
"""

import random
import select
import socket
import struct
import sys
import time

import load
from programs import RunningProgram, config_file, serve_words
from wire import CONFIG

STEADY = 8
VISITORS = 40
AHEAD = 4_000
CHUNK = 64
GROWTH = 1024
RESET = struct.pack("ii", 1, 0)


class Reader:
    """A client in a transfer. It may take nothing for a while, and then goes on."""

    def __init__(self, port, words, keeps_up, lasts, stalls=0.0):
        self.socket = load.dial(port)
        self.socket.setblocking(False)
        self.socket.send(words)
        self.answers = words.count(b"\r") - 1
        self.keeps_up = keeps_up
        self.ends_at = time.monotonic() + lasts
        self.stalls_until = time.monotonic() + stalls
        self.rest = b""
        self.last = None
        self.packets = 0
        self.missed = 0

    def take(self):
        """Takes what came. Whether the connection goes on."""
        if time.monotonic() < self.stalls_until:
            return True
        try:
            piece = self.socket.recv(1 << 17)
        except BlockingIOError:
            return True
        if not piece:
            raise SystemExit("a reader's connection ended")
        self.rest += piece
        while self.answers and len(self.rest) >= 4:
            if not self.rest.startswith(b"OK\r\n"):
                raise SystemExit(f"a command is answered {self.rest[:20]}")
            self.rest = self.rest[4:]
            self.answers -= 1
        whole = len(self.rest) // load.PACKET * load.PACKET if not self.answers else 0
        for at in range(0, whole, load.PACKET):
            self.check(self.rest[at : at + load.PACKET])
        self.rest = self.rest[whole:]
        return True

    def check(self, packet):
        """Checks a packet by the number of the record that it holds."""
        index = int.from_bytes(packet[72:80], "little")
        if packet != b"SL%06X" % (index & 0xFFFFFF) + load.record(index):
            raise SystemExit(f"a packet with record {index} is not its packet")
        if self.last is not None and index <= self.last:
            raise SystemExit(f"record {index} comes after record {self.last}")
        if self.last is not None and index != self.last + 1:
            if self.keeps_up:
                raise SystemExit(f"record {index} follows record {self.last}")
            self.missed += index - self.last - 1
        self.last = index
        self.packets += 1


class Soak:
    def __init__(self, server, seconds):
        self.server = server
        self.seconds = seconds
        self.chance = random.Random(20_261_124)
        self.start = time.monotonic()
        self.came = {"said BYE": 0, "closed": 0, "reset": 0, "stalled": 0, "left a line open": 0}
        self.steady, self.visitors = [], []
        self.poll = select.epoll()
        self.by_descriptor = {}
        self.fed, self.pending, self.feeds = 0, b"", 0
        self.feed = None
        self.packets = self.missed = 0
        self.sizes = []

    def add(self, reader, readers):
        readers.append(reader)
        self.by_descriptor[reader.socket.fileno()] = reader
        self.poll.register(reader.socket.fileno(), select.EPOLLIN)

    def remove(self, reader, readers):
        readers.remove(reader)
        self.poll.unregister(reader.socket.fileno())
        del self.by_descriptor[reader.socket.fileno()]
        self.packets += reader.packets
        self.missed += reader.missed
        reader.socket.close()

    def words(self):
        """What a visitor asks for."""
        number = b"%06X" % (max(self.fed - self.chance.randrange(3_000), 0) & 0xFFFFFF)
        asked = self.chance.choice([b"DATA", b"DATA " + number, b"TIME 2024,1,1"])
        return b"STATION WLF GE\r" + self.chance.choice([b"", b"SELECT BH?\r"]) + asked + b"\rEND\r"

    def visit(self):
        """Another client comes, mostly for less than five seconds; one in eight takes nothing for a while first."""
        words = self.words()
        stalls = self.chance.uniform(2, 20) if self.chance.randrange(8) == 0 else 0.0
        lasts = stalls + self.chance.uniform(0, 5)
        self.came["stalled"] += stalls > 0
        self.add(Reader(self.server.client_port, words, False, lasts, stalls), self.visitors)

    def leave(self, reader):
        """A visitor goes, in one of four ways."""
        how = self.chance.choice(["said BYE", "closed", "reset", "left a line open"])
        self.came[how] += 1
        try:
            if how == "said BYE":
                reader.socket.send(b"BYE\r")
            if how == "left a line open":
                reader.socket.send(b"STATION W")
            if how == "reset":
                reader.socket.setsockopt(socket.SOL_SOCKET, socket.SO_LINGER, RESET)
        except OSError:
            pass
        self.remove(reader, self.visitors)

    def give(self):
        """Sends records while no steady reader is far behind. Every so often the feed ends after a record, and once all that it
        sent was handed on another one comes: of two feeds at once the records would come in no certain order."""
        slowest = min((it.last if it.last is not None else -1) for it in self.steady)
        if self.feed is None:
            if slowest < self.fed - 1:
                return
            self.feed = load.dial(self.server.feed_port)
            self.feed.setblocking(False)
            self.feeds += 1
        for _ in range(8):
            if not self.pending:
                if self.fed - slowest > AHEAD:
                    return
                if self.chance.randrange(1_000) == 0:
                    self.feed.close()
                    self.feed = None
                    return
                self.pending = b"".join(load.record(it) for it in range(self.fed, self.fed + CHUNK))
                self.fed += CHUNK
            try:
                self.pending = self.pending[self.feed.send(self.pending) :]
            except BlockingIOError:
                return

    def step(self):
        now = time.monotonic()
        for reader in [it for it in self.visitors if now > it.ends_at]:
            self.leave(reader)
        while len(self.visitors) < VISITORS and self.chance.randrange(3) == 0:
            self.visit()
        for descriptor, _ in self.poll.poll(0.005):
            reader = self.by_descriptor.get(descriptor)
            if reader is not None:
                reader.take()
        self.give()
        if now - self.start > len(self.sizes):
            self.sizes.append(self.server.resident_kib())

    def end(self):
        """All records that are on their way come to the steady readers, and then everybody leaves."""
        deadline = time.monotonic() + 30
        while self.pending:
            if select.select([], [self.feed], [], 1)[1]:
                self.pending = self.pending[self.feed.send(self.pending) :]
            self.take_all()
        while any(it.last != self.fed - 1 for it in self.steady):
            self.take_all()
            if time.monotonic() > deadline:
                raise SystemExit("the steady readers were not handed all records")
        for reader in list(self.steady):
            self.remove(reader, self.steady)
        for reader in list(self.visitors):
            self.leave(reader)
        if self.feed is not None:
            self.feed.close()

    def take_all(self):
        for descriptor, _ in self.poll.poll(0.01):
            self.by_descriptor[descriptor].take()

    def run(self):
        before = self.server.descriptors()
        for _ in range(STEADY):
            words = b"STATION WLF GE\rDATA\rEND\r"
            self.add(Reader(self.server.client_port, words, True, 1e9), self.steady)
        time.sleep(0.5)
        while time.monotonic() - self.start < self.seconds:
            self.step()
        self.end()
        time.sleep(3)
        return self.server.descriptors() - before


def main():
    seconds = int(sys.argv[1]) if len(sys.argv) > 1 else 600
    with config_file(CONFIG.replace("65536", "8192")) as config, RunningProgram(serve_words(config)) as server:
        soak = Soak(server, seconds)
        left = soak.run()
        is_running = server.is_running()
    warm = min(60, len(soak.sizes) // 2)
    first, growth = soak.sizes[warm], max(soak.sizes[warm:]) - soak.sizes[warm]
    print(f"{seconds} s, {soak.fed} records by {soak.feeds} feeds, {soak.packets} packets to {STEADY} steady readers and others")
    print("visitors: " + ", ".join(f"{count} {how}" for how, count in soak.came.items()) + f"; {soak.missed} records passed over")
    print(f"memory: {first} KiB after the first minute, {growth} KiB more at most after it; {left} descriptors left")
    if left != 0 or growth > GROWTH or not is_running:
        raise SystemExit("soak: failed")


if __name__ == "__main__":
    main()
