"""Programs that are measured: how they are started on loopback, when they listen, and what the system counts of them."""

import contextlib
import os
import re
import resource
import socket
import subprocess
import tempfile
import time

TOP = os.path.dirname(os.path.dirname(os.path.realpath(__file__)))
PROGRAM = os.environ.get("PROGRAM", f"{TOP}/crates/seedlinkd/out/seedlinkd")
HERE = "127.0.0.1"
LISTENING = "0A"


def build():
    """Proves and builds the program, if it isn't built yet."""
    subprocess.run([f"{TOP}/seedlinkd", "--build"], check=True)


def raise_descriptor_limit():
    """Lets this process, and those that it starts, open as many descriptors as the system allows."""
    most = resource.getrlimit(resource.RLIMIT_NOFILE)[1]
    resource.setrlimit(resource.RLIMIT_NOFILE, (most, most))


@contextlib.contextmanager
def config_file(text):
    """The path of a file with the text of a configuration, for as long as a `with` lasts."""
    with tempfile.NamedTemporaryFile("w", suffix=".toml") as file:
        file.write(text)
        file.flush()
        yield file.name


def free_ports():
    """Two ports that nobody listens on."""
    sockets = [socket.create_server((HERE, 0)) for _ in range(2)]
    ports = [listener.getsockname()[1] for listener in sockets]
    for listener in sockets:
        listener.close()
    return ports


def listening_ports():
    """The ports that somebody listens on, at loopback or at all addresses of this machine."""
    with open("/proc/net/tcp", encoding="ascii") as table:
        rows = [line.split() for line in list(table)[1:]]
    places = [row[1].split(":") for row in rows if row[3] == LISTENING]
    return {int(port, 16) for address, port in places if address in ("0100007F", "00000000")}


def await_listener(port):
    """Waits until somebody listens on a port, without being a client."""
    for _ in range(100):
        if port in listening_ports():
            return
        time.sleep(0.05)
    raise SystemExit(f"nobody listens on port {port}")


def serve_words(config, *options, address=HERE):
    """The words that start a server, as a function of its client port and its feed port."""

    def words(client_port, feed_port):
        return [PROGRAM, "serve", config, "--listen", f"{address}:{client_port}", "--feed", f"{address}:{feed_port}", *options]

    return words


class RunningProgram:
    """A program with a port for clients and one for a feed, running for as long as a `with` lasts."""

    def __init__(self, words, before=(), errors=None, prepare=None, is_here=True):
        """WORDS is a function of the client port and the feed port, and what BEFORE has stands before these words. PREPARE is
        called in the new process. A program that is not on this loopback is given a second to listen."""
        self.words, self.before, self.errors, self.prepare, self.is_here = words, before, errors, prepare, is_here

    def __enter__(self):
        self.client_port, self.feed_port = self.ports = free_ports()
        words = [*self.before, *self.words(*self.ports)]
        self.program = subprocess.Popen(words, stdout=subprocess.DEVNULL, stderr=self.errors, preexec_fn=self.prepare)
        if self.is_here:
            for port in self.ports:
                await_listener(port)
        else:
            time.sleep(1)
        return self

    def __exit__(self, *_):
        self.program.kill()
        self.program.wait()

    def is_running(self):
        return self.program.poll() is None

    def cpu_seconds(self):
        """Its seconds of a processor so far."""
        with open(f"/proc/{self.program.pid}/schedstat", encoding="ascii") as line:
            return int(line.read().split()[0]) / 1e9

    def resident_kib(self):
        """Its resident memory in KiB."""
        with open(f"/proc/{self.program.pid}/status", encoding="ascii") as status:
            return int(re.search(r"VmRSS:\s+(\d+)", status.read()).group(1))

    def descriptors(self):
        """How many descriptors it has open."""
        return len(os.listdir(f"/proc/{self.program.pid}/fd"))
