"""Servers that send what they are told to send, whatever they are asked."""

import contextlib
import socket
import threading

import kit


class Scripted:
    """Listens for one connection, sends these answers, then these packets once it was asked END, and no more: in pieces of so many
    bytes. It keeps what it was asked."""

    def __init__(self, answers, packets, piece=1 << 16):
        self.answers, self.packets, self.piece, self.asked = answers, packets, piece, b""
        self.listener = socket.create_server((kit.HERE, 0))
        self.listener.settimeout(kit.PATIENCE)
        self.address = "%s:%d" % self.listener.getsockname()
        self.thread = threading.Thread(target=self.play, daemon=True)
        self.thread.start()

    def play(self):
        with contextlib.suppress(OSError):
            connection = self.listener.accept()[0]
            with contextlib.closing(connection):
                connection.settimeout(kit.PATIENCE)
                connection.setsockopt(socket.IPPROTO_TCP, socket.TCP_NODELAY, 1)
                self.send(connection, self.answers)
                self.hear(connection, b"END\r")
                self.send(connection, self.packets)
                connection.shutdown(socket.SHUT_WR)
                self.hear(connection)

    def send(self, connection, data):
        for at in range(0, len(data), self.piece):
            connection.sendall(data[at : at + self.piece])

    def hear(self, connection, last=None):
        """Reads what it is asked, up to these bytes or the end of the connection."""
        while last is None or not self.asked.endswith(last):
            piece = connection.recv(65_536)
            if not piece:
                break
            self.asked += piece

    def commands(self):
        """What it was asked, once the connection is over."""
        self.thread.join(kit.PATIENCE)
        return self.asked

    def close(self):
        # Whoever waits for a connection is woken by one.
        with contextlib.suppress(OSError):
            socket.create_connection(self.listener.getsockname(), 1).close()
        self.thread.join(kit.PATIENCE)
        self.listener.close()


class Test(kit.Test):
    def scripted(self, answers, *packets, piece=1 << 16):
        """A server for each of these packets, after the same answers."""
        servers = [Scripted(answers, it, piece) for it in packets]
        for it in servers:
            self.addCleanup(it.close)
        return servers
