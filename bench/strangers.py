#!/usr/bin/env python3
"""Measures what readers notice of strangers who try to stop a server, and fails where a figure is above its limit.

    bench/strangers.py [ROW ..]

A server has four readers of one station, and a feed of 200 records a second. Each row is a stranger that does its worst meanwhile,
beside a calm run: it prints the median and the 99th percentile of the time from a record's sending to its receipt, and the longest
silence between two packets of a reader, in milliseconds. Each packet is checked, and all have to come. Further rows count what stays
in memory, which answers come, and when dead feeds are noticed. Server, strangers and readers each have a processor of their own.

Everything is on loopback, limited in number and time, but for the row `dead`, which makes two network namespaces of its own. With
names of rows only these are played: calm crowd babble100 babble1000 scan1 scan50 stuck halfclose hoard followers status dead.
"""

import os
import re
import select
import socket
import statistics
import subprocess
import sys
import time

import load
from programs import HERE, RunningProgram, build, config_file, free_ports, raise_descriptor_limit, serve_words

SECONDS = 8
RATE = 200
READERS = 4
STATIONS = 16
HELD = 65_536
PLACES = 10_000
PROCESSORS = sorted(os.sched_getaffinity(0))
SERVER, STRANGER, WATCH = (PROCESSORS[it % len(PROCESSORS)] for it in range(3))
GREETING = b"SeedLink v3.0 (station access)\r\n"


def config_text(stations, most=HELD):
    """A station for the readers, one that gets no record, and so many that hold all they can, or fewer records."""
    head = f'title = "Strangers"\nmax_connections = {PLACES}\n'
    codes = ["WLF", "NONE", *(f"S{it:02d}" for it in range(stations))]
    held = {"NONE": 1}
    stanza = '\n[[station]]\nnetwork = "GE"\ncode = "{}"\ndescription = "Station"\ncapacity = {}\n'
    return head + "".join(stanza.format(it, held.get(it, most if it.startswith("S") else HELD)) for it in codes)


def record_of(code, number):
    """A record of a station other than GE WLF."""
    return load.record(number)[:8] + code.encode().ljust(5) + load.record(number)[13:]


def pin(processor):
    return lambda: os.sched_setaffinity(0, {processor})


def serving(config, *options, errors=subprocess.DEVNULL, before=(), address=HERE):
    """A server on a processor of its own."""
    return RunningProgram(serve_words(config, *options, address=address), before, errors, pin(SERVER), address == HERE)


class Stranger:
    """One of the strangers below, in a process on a processor of its own. It says when it has begun."""

    def __init__(self, name, server, *words):
        self.words = [sys.executable, os.path.realpath(__file__), "--play", name, str(server.client_port), str(server.feed_port), *map(str, words)]

    def __enter__(self):
        self.program = subprocess.Popen(self.words, stdout=subprocess.PIPE, stdin=subprocess.PIPE, preexec_fn=pin(STRANGER))
        if not self.program.stdout.readline().startswith(b"begun"):
            raise SystemExit("a stranger did not begin")
        return self

    def __exit__(self, *_):
        self.program.kill()
        self.program.wait()


class Watch:
    """Readers of GE WLF and a feed. How long each packet takes, and the longest silence of a reader."""

    def __init__(self, server):
        self.server = server
        self.readers = [load.reader(server.client_port) for _ in range(READERS)]
        self.feeds = [load.dial(server.feed_port)]
        self.next = 0
        self.sent, self.took, self.silence = {}, [], 0.0
        self.rest = [b""] * READERS
        self.count = [0] * READERS
        self.came = [set() for _ in range(READERS)]
        self.last = [None] * READERS
        self.poll = select.epoll()
        self.at = {client.fileno(): it for it, client in enumerate(self.readers)}
        for client in self.readers:
            self.poll.register(client.fileno(), select.EPOLLIN)
        time.sleep(0.3)

    def send(self, feed):
        feed.sendall(load.record(self.next))
        self.sent[self.next] = time.monotonic()
        self.next += 1

    def take(self, it):
        piece = self.readers[it].recv(1 << 17)
        now = time.monotonic()
        if not piece:
            raise SystemExit("a reader's connection ended")
        whole = self.rest[it] + piece
        while len(whole) >= load.PACKET:
            packet = whole[: load.PACKET]
            number = int.from_bytes(packet[72:80], "little")
            if packet != b"SL%06X" % self.count[it] + load.record(number) or number in self.came[it]:
                raise SystemExit(f"a packet with record {number} is not its packet, or comes twice")
            self.came[it].add(number)
            self.took.append(now - self.sent[number])
            whole = whole[load.PACKET :]
            self.count[it] += 1
        self.rest[it] = whole
        if self.last[it] is not None:
            self.silence = max(self.silence, now - self.last[it])
        self.last[it] = now

    def is_done(self):
        return min(self.count) == self.next

    def listen(self, until):
        """Takes what comes up to a time, or until all has come if nothing more is sent."""
        while (now := time.monotonic()) < until:
            for descriptor, _ in self.poll.poll(max(until - now, 0)):
                self.take(self.at[descriptor])
            if until - now > 1 and self.is_done():
                return

    def run(self, seconds=SECONDS):
        """Sends records for so long, half of them by a feed that comes in the middle, and waits until they have come."""
        start = time.monotonic()
        for it in range(seconds * RATE):
            if it == seconds * RATE // 2:
                self.feeds.append(load.dial(self.server.feed_port))
                self.new_feed = self.next
            self.listen(start + it / RATE)
            self.send(self.feeds[-1])
        self.listen(time.monotonic() + 40)
        for client in [*self.readers, *self.feeds]:
            client.close()
        return self

    def figures(self):
        """The median, the 99th percentile and the longest silence in milliseconds, and how many packets did not come."""
        took = sorted(self.took) or [float("inf")]
        missing = READERS * (self.next) - len(self.took)
        return statistics.median(took) * 1e3, took[len(took) * 99 // 100] * 1e3, self.silence * 1e3, missing


# The strangers.


def begun():
    print("begun", flush=True)


def play_crowd(listen, feed):
    """Connects and closes as fast as it can, beside 9,990 clients that are asleep."""
    asleep = [load.idle_client(listen) for _ in range(9_990)]
    begun()
    end = time.monotonic() + 60
    addresses = [f"127.0.{it // 200}.{it % 200 + 2}" for it in range(2_000)]
    while time.monotonic() < end:
        for address in addresses:
            come_and_go(listen, address)
    return asleep


def come_and_go(listen, address):
    """Twenty clients connect from one address, so that the system never runs out of ports, and leave at once."""
    clients = [socket.socket(socket.AF_INET, socket.SOCK_STREAM | socket.SOCK_NONBLOCK) for _ in range(20)]
    for client in clients:
        client.bind((address, 0))
        client.connect_ex(("127.0.0.1", listen))
    for client in clients:
        client.close()


def play_babble(listen, feed, count):
    """So many clients send bytes without an end of line."""
    clients = [load.dial(listen) for _ in range(int(count))]
    poll = select.epoll()
    for client in clients:
        client.setblocking(False)
        poll.register(client.fileno(), select.EPOLLOUT)
    by_descriptor = {client.fileno(): client for client in clients}
    babble = b"A" * 65_536
    begun()
    end = time.monotonic() + 60
    while time.monotonic() < end:
        for descriptor, _ in poll.poll(1):
            try:
                by_descriptor[descriptor].send(babble)
            except BlockingIOError:
                pass


def play_scan(listen, feed, count):
    """So many clients ask again and again for all that 16 full stations hold, with 64 patterns each of which none fits."""
    patterns = b"".join(b"SELECT Z%02dQ\r" % it for it in range(63)) + b"SELECT QQQ\r"
    asked = b"".join(b"STATION S%02d GE\r%sFETCH\r" % (it, patterns) for it in range(STATIONS)) + b"END\r"
    poll, clients = select.epoll(), {}

    def come():
        client = load.dial(listen)
        clients[client.fileno()] = client
        poll.register(client.fileno(), select.EPOLLIN)
        client.sendall(asked)

    for _ in range(int(count)):
        come()
    begun()
    end = time.monotonic() + 60
    while time.monotonic() < end:
        for descriptor, _ in poll.poll(1):
            if b"END" in clients[descriptor].recv(65_536)[-8:]:
                poll.unregister(descriptor)
                clients.pop(descriptor).close()
                come()


def play_hoard(listen, feed, count):
    """So many followers never read. What the system keeps on their side, which would be another machine, is kept small."""
    clients = [load.reader(listen) for _ in range(int(count))]
    for client in clients:
        client.setsockopt(socket.SOL_SOCKET, socket.SO_RCVBUF, 4_096)
    begun()
    time.sleep(120)
    return clients


def play_dead(listen, feed):
    """Sixteen feeds that bring a part of a record, and then nothing."""
    feeds = [socket.create_connection(("10.77.54.1", feed), timeout=5) for _ in range(16)]
    for it in feeds:
        it.sendall(b"\0" * 100)
    begun()
    time.sleep(300)


QUESTION = b"GET /metrics HTTP/1.1\r\nHost: here\r\n\r\n"
KINDS = [QUESTION] * 7 + [b"GET /met", b"\x16\x03\x01" * 2_000, b"GET / HTTP/1.1\r\n" + b"X: y\r\n" * 2_000]


class Askers:
    """Connections to a status port, each of which asks once and takes what it is answered, but for every tenth."""

    def __init__(self, port):
        self.port, self.poll, self.open = port, select.epoll(), {}

    def come(self, number):
        client = socket.socket(socket.AF_INET, socket.SOCK_STREAM | socket.SOCK_NONBLOCK)
        client.bind((f"127.0.{number // 200 % 200}.{number % 200 + 2}", 0))
        client.connect_ex(("127.0.0.1", self.port))
        self.open[client.fileno()] = (client, KINDS[number % len(KINDS)], number % 10 == 0, time.monotonic())
        self.poll.register(client.fileno(), select.EPOLLOUT)

    def go(self, descriptor):
        self.poll.unregister(descriptor)
        self.open.pop(descriptor)[0].close()

    def tend(self):
        """Goes on with those that may."""
        for descriptor, event in self.poll.poll(0):
            client, question, is_deaf, _ = self.open[descriptor]
            try:
                if event & select.EPOLLOUT:
                    client.send(question)
                    self.poll.modify(descriptor, 0 if is_deaf else select.EPOLLIN)
                elif not event & select.EPOLLIN or not client.recv(1 << 20):
                    self.go(descriptor)
            except BlockingIOError:
                pass
            except OSError:
                self.go(descriptor)
        late = time.monotonic() - 6
        for descriptor in [it for it, (_, _, _, since) in self.open.items() if since < late]:
            self.go(descriptor)


def play_status(listen, feed, port):
    """A thousand requests a second for the metrics, of which three in ten are none, and one in ten is never taken."""
    askers = Askers(int(port))
    begun()
    begin = time.monotonic()
    number = 0
    while time.monotonic() - begin < 60:
        while number < (time.monotonic() - begin) * 1_000:
            askers.come(number)
            number += 1
        askers.tend()
        time.sleep(0.001)


PLAYS = {"status": play_status, "crowd": play_crowd, "babble": play_babble, "scan": play_scan, "hoard": play_hoard, "dead": play_dead}

# The rows.


def told(what, figures, limits):
    """Prints a row. Whether all of its figures are within their limits."""
    is_well = all(it <= most for it, most in zip(figures, limits))
    shown = " ".join(f"{it:9.1f}" for it in figures)
    most = " ".join(f"{it:6g}" for it in limits)
    print(f"{shown}  at most {most}  {'' if is_well else 'FAILED '}{what}", flush=True)
    return is_well


def watched(what, server, limits, *stranger):
    """What readers notice, with a stranger if one is named."""
    watch = Watch(server)
    if stranger:
        with Stranger(stranger[0], server, *stranger[1:]):
            watch.run()
    else:
        watch.run()
    return told(what, watch.figures(), limits)


CALM = (20, 20, 100, 0)


def with_config(stations, play):
    with config_file(config_text(stations)) as config:
        return play(config)


def simple(what, limits, *stranger):
    def play(config):
        with serving(config) as server:
            return watched(what, server, limits, *stranger)

    return with_config(0, play)


def fill(server):
    """Fills the stations that are scanned."""
    feed = load.dial(server.feed_port)
    for it in range(STATIONS):
        for at in range(0, HELD, 1_024):
            feed.sendall(b"".join(record_of(f"S{it:02d}", number) for number in range(at, at + 1_024)))
    feed.close()
    client = load.dial(server.client_port)
    client.sendall(b"STATION S%02d GE\rFETCH %06X\rEND\r" % (STATIONS - 1, HELD - 1))
    while b"END" not in client.recv(1 << 16):
        pass
    client.close()


def scan(count, limits):
    def play(config):
        with serving(config) as server:
            fill(server)
            return watched(f"{count} client{'s' * (count > 1)} that scan 16 full stations", server, limits, "scan", count)

    return with_config(STATIONS, play)


def stuck():
    """A standard error that nobody reads, and a report each turn."""

    def play(config):
        reading, writing = os.pipe()
        os.set_blocking(writing, False)
        try:
            while True:
                os.write(writing, b"." * 4_096)
        except BlockingIOError:
            os.set_blocking(writing, True)
        with serving(config, "--report", "1", errors=writing) as server:
            os.close(writing)
            is_well = watched("a standard error that is full, and a report each turn", server, CALM)
            os.close(reading)
            return is_well

    return with_config(0, play)


def half_close():
    """HELLO, and then the sending half is closed: how many of 100 clients are not answered."""

    def play(config):
        with serving(config) as server:
            answered = 0
            for it in range(100):
                client = load.dial(server.client_port)
                time.sleep(0.002 * (it % 5))
                client.sendall(b"HELLO\r")
                client.shutdown(socket.SHUT_WR)
                came = b""
                while piece := client.recv(4_096):
                    came += piece
                answered += came.startswith(GREETING)
                client.close()
            return told("of 100 clients that close their sending half after HELLO: not answered", (100 - answered,), (0,))

    return with_config(0, play)


def kernel_memory():
    """The memory of all TCP sockets in MiB."""
    with open("/proc/net/sockstat", encoding="ascii") as lines:
        return int(re.search(r"TCP:.* mem (\d+)", lines.read()).group(1)) * os.sysconf("SC_PAGE_SIZE") / (1 << 20)


def feed_at_once(server, count):
    feed = load.dial(server.feed_port)
    feed.sendall(b"".join(load.record(it) for it in range(count)))
    time.sleep(5)
    feed.close()


def hoard():
    """200 followers that never read: how much memory the system keeps for them."""

    def play(config):
        with serving(config) as server, Stranger("hoard", server, 200):
            before = kernel_memory()
            feed_at_once(server, 30_000)
            return told("MiB of the system's, for 200 followers that never read", (kernel_memory() - before,), (120,))

    return with_config(0, play)


def followers():
    """8,000 followers are sent 64 records and take them: how much memory stays."""

    def play(config):
        with serving(config) as server:
            clients = [load.reader(server.client_port) for _ in range(8_000)]
            time.sleep(1)
            before = server.resident_kib()
            feed_at_once(server, 64)
            wanted = load.stream_of(0, 64)
            for client in clients:
                client.setblocking(True)
                if client.recv(len(wanted), socket.MSG_WAITALL) != wanted:
                    raise SystemExit("a follower is sent something else")
            time.sleep(1)
            return told("MiB of memory that stays after 8,000 followers were sent 64 records", ((server.resident_kib() - before) / 1024,), (20,))

    return with_config(0, play)


def metrics(port):
    """What is answered at the status port; nothing if it is full."""
    came = b""
    try:
        client = load.dial(port)
        client.sendall(QUESTION)
        while piece := client.recv(1 << 20):
            came += piece
        client.close()
    except OSError:
        return b""
    return came


def metrics_lines(port):
    """How many lines the metrics have. Those who take nothing may hold the port for five seconds more, so it is asked again."""
    begin = time.monotonic()
    while time.monotonic() - begin < 10:
        came = metrics(port)
        if came:
            return came.count(b"\n")
        time.sleep(0.2)
    return 0


def status():
    """A thousand requests a second at the status port of a server with 1,024 stations."""
    with config_file(config_text(1_022, 1)) as config:
        port = free_ports()[0]
        with serving(config, "--status", f"127.0.0.1:{port}") as server:
            is_well = watched("1,000 requests a second for the metrics of 1,024 stations", server, CALM, "status", port)
            return is_well and told("of the lines of 3 metrics of 1,024 stations: missing after them", (max(0, 3 * 1_024 - metrics_lines(port)),), (0,))


def run(*words):
    subprocess.run(words, check=True)


def cut_off(config, rooms):
    """Sixteen feeds come from the other room, and its line goes down: the seconds until another feed is taken."""
    ports = f"ip netns exec {rooms[0]}".split()
    with serving(config, before=ports, address="10.77.54.1") as server:
        words = [*f"ip netns exec {rooms[1]}".split(), sys.executable, os.path.realpath(__file__), "--play", "dead", str(server.client_port), str(server.feed_port)]
        feeds = subprocess.Popen(words, stdout=subprocess.PIPE)
        try:
            feeds.stdout.readline()
            time.sleep(1)
            run("ip", "-n", rooms[1], "link", "set", "there", "down")
            start = time.monotonic()
            while time.monotonic() - start < 240:
                ask = f"import socket; c = socket.create_connection(('10.77.54.1', {server.feed_port}), 5); c.settimeout(1.5); print(len(c.recv(1)))"
                asked = subprocess.run([*ports, sys.executable, "-c", ask], capture_output=True, check=False)
                if b"timed out" in asked.stderr or b"TimeoutError" in asked.stderr:
                    return time.monotonic() - start
                time.sleep(3)
            return 240.0
        finally:
            feeds.kill()
            feeds.wait()


def dead():
    """Sixteen feeds lose their power: the seconds until another feed is taken."""
    rooms = [f"strangers{os.getpid()}{it}" for it in "ab"]
    if os.getuid() or subprocess.run(["ip", "netns", "add", rooms[0]], capture_output=True, check=False).returncode:
        print("      not played: sixteen dead feeds need network namespaces (ip netns, as root)")
        return True
    try:
        run("ip", "netns", "add", rooms[1])
        run("ip", "-n", rooms[0], "link", "add", "here", "type", "veth", "peer", "name", "there", "netns", rooms[1])
        for room, end, number in ((rooms[0], "here", 1), (rooms[1], "there", 2)):
            run("ip", "-n", room, "link", "set", "lo", "up")
            run("ip", "-n", room, "addr", "add", f"10.77.54.{number}/24", "dev", end)
            run("ip", "-n", room, "link", "set", end, "up")
        took = with_config(0, lambda config: cut_off(config, rooms))
        return told("seconds until a feed is taken after sixteen lost their power", (took,), (180,))
    finally:
        for room in rooms:
            subprocess.run(["ip", "netns", "del", room], capture_output=True, check=False)


ROWS = {
    "calm": lambda: simple("nobody else", CALM),
    "crowd": lambda: simple("one that connects and closes as fast as it can, 9,990 asleep", CALM, "crowd"),
    "babble100": lambda: simple("100 clients that send no end of line", CALM, "babble", 100),
    "babble1000": lambda: simple("1,000 of them", (50, 50, 250, 0), "babble", 1_000),
    "scan1": lambda: scan(1, CALM),
    "scan50": lambda: scan(50, (100, 100, 500, 0)),
    "stuck": stuck,
    "halfclose": half_close,
    "hoard": hoard,
    "followers": followers,
    "status": status,
    "dead": dead,
}

if __name__ == "__main__":
    raise_descriptor_limit()
    if sys.argv[1:2] == ["--play"]:
        PLAYS[sys.argv[2]](*(int(it) for it in sys.argv[3:]))
        sys.exit(0)
    build()
    os.sched_setaffinity(0, {WATCH})
    print(f"{'median':>9} {'99th':>9} {'silence':>9} {'missing':>9}  in ms, or what the row says", flush=True)
    results = [ROWS[name]() for name in sys.argv[1:] or ROWS]
    sys.exit(0 if all(results) else 1)
