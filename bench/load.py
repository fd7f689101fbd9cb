#!/usr/bin/env python3
"""Loads a server: readers ask for a station by DATA and check each packet, idle clients wait, and a feeder sends records.

    bench/load.py CLIENT_PORT FEED_PORT READERS RECORDS [IDLE]

It prints packets a second, from the first byte fed to the last packet received by the last reader. The feeder is never more than
30,000 records ahead of the slowest reader, so the station, GE WLF, has to hold more. It has to begin with number 000000.
"""

import select
import socket
import sys
import time

RECORD = 512
PACKET = 520
AHEAD = 30_000
PIECE = 1 << 18
FEED = 1 << 24
HEADER = (
    b"000001D WLF    BHZGE\x07\xe8\x00\x3c\x00\x00\x00\x00\x00\x00\x00\x64\x00\x64\x00\x01"
    b"\x00\x00\x00\x01\x00\x00\x00\x00\x00\x40\x00\x30\x03\xe8\x00\x00\x0b\x01\x09\x00"
)


def record(number, station=b"WLF  "):
    """The record of a station of network GE, of five bytes with spaces behind it, that is fed as the `number`-th."""
    header = HEADER[:8] + station + HEADER[13:]
    return (header.ljust(64, b"\0") + number.to_bytes(8, "little")).ljust(RECORD, b"\0")


def stream_of(first, count):
    """The bytes that a reader is to be sent of so many records, from one on."""
    return b"".join(b"SL%06X" % (it & 0xFFFFFF) + record(it) for it in range(first, first + count))


def dial(port):
    client = socket.create_connection(("127.0.0.1", port), timeout=20)
    client.setsockopt(socket.IPPROTO_TCP, socket.TCP_NODELAY, 1)
    return client


def ask(client, line, wanted):
    """Sends a line and takes its answer."""
    client.sendall(line)
    got = b""
    while len(got) < len(wanted):
        piece = client.recv(len(wanted) - len(got))
        if not piece:
            raise SystemExit(f"no answer to {line}")
        got += piece
    if got != wanted:
        raise SystemExit(f"{line} is answered {got}")


def reader(port):
    """A connection of a reader that waits for what comes next to GE WLF."""
    client = dial(port)
    ask(client, b"STATION WLF GE\r", b"OK\r\n")
    ask(client, b"DATA\r", b"OK\r\n")
    client.sendall(b"END\r")
    client.setblocking(False)
    return client


def fill(port, stations, count):
    """Feeds so many records to each of the stations W000, W001 and so on, by turns, and waits until they are taken."""
    feed = dial(port)
    for number in range(count):
        feed.sendall(b"".join(record(number, b"W%03d " % at) for at in range(stations)))
    feed.shutdown(socket.SHUT_WR)
    while feed.recv(1):
        pass
    feed.close()


def flood(port, records, times=1):
    """Feeds so many records to station GE WLF at once, so many times, and waits until they are taken. How many seconds that took."""
    whole = b"".join(record(it) for it in range(records))
    feed = dial(port)
    start = time.monotonic()
    for _ in range(times):
        feed.sendall(whole)
    feed.shutdown(socket.SHUT_WR)
    while feed.recv(1):
        pass
    took = time.monotonic() - start
    feed.close()
    return took


def fetcher(port, stations):
    """A connection of a reader that asks for all that is held of these stations, but for END."""
    client = dial(port)
    for at in range(stations):
        ask(client, b"STATION W%03d GE\r" % at, b"OK\r\n")
        ask(client, b"FETCH\r", b"OK\r\n")
    return client


def take_all(client, most=None):
    """Takes what comes until the connection ends, or so many bytes; how many they were."""
    taken = 0
    while most is None or taken < most:
        piece = client.recv(PIECE if most is None else min(PIECE, most - taken))
        if not piece:
            break
        taken += len(piece)
    return taken


def idle_client(port):
    """A client that named a station, and only waits."""
    client = dial(port)
    ask(client, b"STATION WLF GE\r", b"OK\r\n")
    return client


def take_packet(client):
    """Takes one packet of a reader that may wait for it."""
    left = PACKET
    while left:
        piece = client.recv(left)
        if not piece:
            raise SystemExit("the connection ended")
        left -= len(piece)


def lone_latencies(client_port, feed_port, readers, records):
    """The milliseconds from each lone record's sending until the last of so many readers has it."""
    clients = [reader(client_port) for _ in range(readers)]
    for client in clients:
        client.setblocking(True)
    feed = dial(feed_port)
    time.sleep(0.4)
    seen = []
    for number in range(records):
        start = time.monotonic()
        feed.sendall(record(number))
        for client in clients:
            take_packet(client)
        seen.append((time.monotonic() - start) * 1e3)
        time.sleep(0.002)
    for client in [*clients, feed]:
        client.close()
    return seen


class Load:
    """Readers that were sent nothing yet, and the records that they will be sent."""

    def __init__(self, client_port, feed_port, readers, records, idle=0):
        self.idle = [idle_client(client_port) for _ in range(idle)]
        self.readers = [reader(client_port) for _ in range(readers)]
        self.bytes_of = [0] * readers
        self.stream = stream_of(0, records)
        self.fed = b"".join(record(it) for it in range(records))
        time.sleep(0.4)
        self.feed = dial(feed_port)
        self.feed.setblocking(False)

    def take(self, at):
        """Takes what came to a reader, and checks it."""
        piece = self.readers[at].recv(PIECE)
        if not piece:
            raise SystemExit(f"reader {at}: the connection ended")
        if not self.stream.startswith(piece, self.bytes_of[at]):
            raise SystemExit(f"reader {at}: wrong bytes after packet {self.bytes_of[at] // PACKET}")
        self.bytes_of[at] += len(piece)

    def give(self, sent):
        """Sends more of the records, as far as the slowest reader and the server let it. How many bytes were sent in all."""
        most = min(len(self.fed), (min(self.bytes_of) // PACKET + AHEAD) * RECORD)
        whole = memoryview(self.fed)
        while sent < most:
            try:
                sent += self.feed.send(whole[sent : min(most, sent + 65_536)])
            except BlockingIOError:
                break
        return sent

    def run(self, seconds=100):
        """Feeds all records, and returns the seconds until each reader has all of them."""
        poll = select.epoll()
        for at, client in enumerate(self.readers):
            poll.register(client.fileno(), select.EPOLLIN)
        by_descriptor = {client.fileno(): at for at, client in enumerate(self.readers)}
        poll.register(self.feed.fileno(), select.EPOLLOUT)
        sent, start = 0, time.monotonic()
        is_feeding = True
        while min(self.bytes_of) < len(self.stream):
            if time.monotonic() - start > seconds:
                raise SystemExit(f"timed out: {min(self.bytes_of) // PACKET} packets")
            for descriptor, _ in poll.poll(0.01):
                if descriptor in by_descriptor:
                    self.take(by_descriptor[descriptor])
            if is_feeding:
                sent = self.give(sent)
                if sent == len(self.fed):
                    poll.unregister(self.feed.fileno())
                    is_feeding = False
        return time.monotonic() - start

    def close(self):
        for client in [*self.idle, *self.readers, self.feed]:
            client.close()


if __name__ == "__main__":
    numbers = [int(it) for it in sys.argv[1:]]
    load = Load(*numbers)
    took = load.run()
    print(f"{took:.3f} s  {len(load.readers) * numbers[3] / took:.0f} packets a second")
    load.close()
