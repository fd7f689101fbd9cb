"""Strangers who take all descriptors that a server may open: what it needs itself it can still do."""

import os
import resource

import kit
from kit import record

LIMIT = 40
STRANGERS = 60
CONFIG = """title = "Reserve"
max_connections = 1000
[[station]]
network = "GE"
code = "APE"
description = ""
capacity = 10
access = "%s"
"""


def few_descriptors():
    resource.setrlimit(resource.RLIMIT_NOFILE, (LIMIT, LIMIT))


class Reserve(kit.Test):
    def setUp(self):
        super().setUp()
        self.server = self.serve(CONFIG % "127.0.0.1", "--reread", "1", "--numbers", "numbers", prepare=few_descriptors)
        self.client = self.keep(self.server.client())
        self.client.say(b"HELLO\r", b"SeedLink v3.0 (station access)\r\nReserve\r\n")
        self.feed = self.keep(self.server.feeder())
        self.server.followers(1, r"seedlinkd: feed \d+ 127")
        for _ in range(STRANGERS):
            self.keep(self.server.client())

        def descriptors():
            return len(os.listdir("/proc/%d/fd" % self.server.process.pid))

        kit.until(lambda: descriptors() >= LIMIT - 1, lambda: "%d descriptors, and there are %d" % (LIMIT - 1, descriptors()))

    def test_a_new_list_comes_into_force(self):
        """The station that the client sees is closed to it, so the client is cut."""
        kit.write("new", CONFIG % "192.0.2.1")
        os.rename("new", self.server.config)
        self.client.over()

    def test_numbers_are_kept(self):
        """The file is removed, and comes back before more records come than the numbers in it allow for."""
        os.remove("numbers")
        for first in range(0, 2048, 64):
            self.feed.send(b"".join(record(it, "APE") for it in range(first, first + 64)))
        kit.until(lambda: os.path.exists("numbers"), "the file of numbers")
