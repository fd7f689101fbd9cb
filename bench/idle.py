#!/usr/bin/env python3
"""Counts the system calls that a server makes while nothing happens, while clients that it closed keep their ends open, and while it
has no descriptors left for its clients.

It starts servers on loopback and ends them, prints a line a figure, and fails if one is above its limit. It needs strace.
"""

import re
import resource
import socket
import subprocess
import sys
import tempfile
import time

from programs import TOP, RunningProgram, build, serve_words

CONFIG = f"{TOP}/examples/loopback.toml"
GREETING = b"SeedLink v3.0 (station access)\r\n"
SECONDS = 4


def serving(descriptors=1024):
    """A server that ends by itself after two minutes without work, and may open so many descriptors."""

    def limit():
        resource.setrlimit(resource.RLIMIT_NOFILE, (descriptors, descriptors))

    return RunningProgram(serve_words(CONFIG, "--turns", "1200"), prepare=limit)


def calls_a_second(server):
    """How many system calls a server makes, by `strace` over some seconds."""
    with tempfile.NamedTemporaryFile(suffix=".calls") as counted:
        tracer = subprocess.Popen(["strace", "-f", "-c", "-U", "calls,name", "-o", counted.name, "-p", str(server.program.pid)], stderr=subprocess.DEVNULL)
        time.sleep(SECONDS)
        tracer.terminate()
        tracer.wait()
        total = re.search(rb"(\d+)\s+total", counted.read())
    return int(total.group(1)) / SECONDS if total else 0


def greeted(clients):
    """How many clients are answered within two seconds."""
    time.sleep(2)
    answered = 0
    for client in clients:
        client.setblocking(False)
        try:
            answered += client.recv(256).startswith(GREETING)
        except BlockingIOError:
            pass
    return answered


def say_hello(port):
    client = socket.create_connection(("127.0.0.1", port), timeout=5)
    client.sendall(b"HELLO\r")
    return client


def told(figure, least, most, what):
    print(f"{figure:10.1f} {least:6d} to {most:4d}  {what}")
    return least <= figure <= most


def idle():
    with serving() as server:
        return told(calls_a_second(server), 1, 20, "system calls a second of an idle server")


def lingering():
    """Clients that said BYE and do not close their end: the server waits for them, and does nothing meanwhile."""
    with serving() as server:
        clients = [say_hello(server.client_port) for _ in range(10)]
        answered = told(greeted(clients), 10, 10, "clients are answered, and say BYE")
        for client in clients:
            client.sendall(b"BYE\r")
        time.sleep(1)
        return all([answered, told(calls_a_second(server), 1, 20, "system calls a second while their ends stay open")])


def crowded():
    """100 clients at a server that may have 64 descriptors."""
    with serving(descriptors=64) as server:
        clients = [say_hello(server.client_port) for _ in range(100)]
        answered = told(greeted(clients), 40, 64, "of 100 clients are answered by a server with 64 descriptors")
        calm = told(calls_a_second(server), 1, 60, "system calls a second while the others wait")
        for client in clients:
            client.close()
        last = say_hello(server.client_port)
        goes_on = told(greeted([last]), 1, 1, "client is answered after they left")
        return all([answered, calm, goes_on, server.is_running()])


if __name__ == "__main__":
    build()
    sys.exit(0 if all([idle(), lingering(), crowded()]) else 1)
