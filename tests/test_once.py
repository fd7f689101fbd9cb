"""Readers with a state add each record once, however often they and their server are killed or ended at random moments.

With TRIED_STOPS=N in the environment the slow test makes N stops in place of 200; TRIED_SEED=N repeats one.
"""

import collections
import contextlib
import os
import random
import signal
import socket
import threading
import time

import kit

STOPS = int(os.environ.get("TRIED_STOPS", "200"))
STATIONS, CHANNELS = ("APE", "WLF", "KBS"), ("BHZ", "BHN", "LHE")
CONFIG = 'title = "Once"\n' + "".join(
    '[[station]]\nnetwork = "GE"\ncode = "%s"\ndescription = "open"\ncapacity = 16384\n' % it for it in STATIONS
)


def record(number):
    """The record that is fed as the `number`-th: of one of nine streams, and of one of two days."""
    start = (2024, 60 + number // 5 % 2, number // 3600 % 24, number // 60 % 60, number % 60, 0)
    return kit.record(number, STATIONS[number % 3], CHANNELS[number // 3 % 3], start=start)


class Feeder(threading.Thread):
    """Feeds records to whatever listens at a port, a few at a time, until it is over; or those of another feeder, some behind it."""

    def __init__(self, port, first, chance, leader=None):
        super().__init__(daemon=True)
        self.port, self.fed, self.chance, self.is_over, self.leader = port, first, chance, False, leader
        # The first record that was sent over each connection; there is one for each server, or more.
        self.begins = []

    def run(self):
        connection = None
        while not self.is_over:
            try:
                if connection is None:
                    connection = socket.create_connection((kit.HERE, self.port), timeout=5)
                    self.begins.append(self.fed)
                first = self.fed
                end = self.leader.fed - 5 if self.leader else self.fed + 16
                self.fed += self.chance.randint(1, max(min(16, end - first), 1)) if end > first else 0
                connection.sendall(b"".join(map(record, range(first, self.fed))))
            except OSError:
                connection = None
            time.sleep(self.chance.random() * 0.05)
        if connection:
            connection.close()

    def finish(self):
        self.is_over = True
        self.join()


def counted(folder):
    """How often each record stands in the files of an archive, or in the one file of an output."""
    paths = [folder] if os.path.isfile(folder) else []
    for place, _, names in os.walk(folder):
        paths += [os.path.join(place, it) for it in names if not it.startswith(".") and not it.endswith(".torn")]
    return collections.Counter(it for path in paths for it in kit.identities_in(path))


class Once(kit.Test):
    KINDS = ("archive", "output")

    def stop_and_start(self, stops, seed):
        """Stops readers half of the times, and then the server too."""
        self.note("once: TRIED_SEED=%d" % seed) if stops == STOPS else None
        chance = random.Random(seed)
        self.server = self.serve(CONFIG, "--numbers", "numbers")
        self.readers = {it: self.read_into(it) for it in self.KINDS}
        first = Feeder(self.server.feeds, 0, random.Random(seed + 1))
        first.start()
        for _ in range(stops // 2):
            time.sleep(chance.random())
            self.restart(chance.choice(self.KINDS), chance)
        first.finish()
        for it in self.KINDS:
            self.await_all(it, range(first.fed))
        again = Feeder(self.server.feeds, first.fed, random.Random(seed + 2))
        again.start()
        for _ in range(stops - stops // 2):
            time.sleep(chance.random() * 2)
            self.restart(chance.choice(("server",) + self.KINDS * 2), chance)
        self.server.await_said("seedlinkd: feed ")
        enough = again.fed + 50
        kit.until(lambda: again.fed >= enough, "records that the last server is fed")
        again.finish()
        for it in self.KINDS:
            self.await_all(it, range(again.begins[-1], again.fed))
            self.assert_last_ones_are_missing(it, first.begins + again.begins, again.fed)

    def read_into(self, kind):
        wants = ["GE_%s@000000" % it for it in STATIONS]
        return self.reader(self.server, *wants, "--retry", "1", "--" + kind, kind, "--state", kind + ".state")

    def restart(self, what, chance):
        how = chance.choice((signal.SIGKILL, signal.SIGTERM))
        (self.server if what == "server" else self.readers[what]).end(how)
        time.sleep(chance.random() * 0.2)
        if what == "server":
            self.server = self.keep(self.server.again("--numbers", "numbers"))
        else:
            self.readers[what] = self.read_into(what)

    def await_all(self, kind, wanted):
        """Waits until these records are there, each record once."""

        def missing():
            with contextlib.suppress(OSError, AssertionError):
                counts = counted(kind)
                doubled = [it for it in counts if counts[it] > 1]
                self.doubled = doubled
                return [it for it in wanted if it not in counts]
            return list(wanted)

        kit.until(lambda: not missing(), lambda: "%s: %d records, of which %s.. are missing; %s" % (
            kind, len(wanted), missing()[:9], self.readers[kind].said()[-300:]), 60)
        self.assertEqual(self.doubled[:9], [], kind)

    def assert_last_ones_are_missing(self, kind, begins, fed):
        """Of what was sent over a connection to a server that was stopped, the last ones may be missing, which it alone had."""
        counts = counted(kind)
        for first, end in zip(begins, begins[1:] + [fed]):
            lost = [it for it in range(first, end) if it not in counts]
            self.assertEqual(lost, list(range(end - len(lost), end)), "%s: records from %d to %d" % (kind, first, end))

    @kit.limit(60)
    def test_a_few_stops(self):
        self.stop_and_start(8, 93)

    @kit.slow
    @kit.limit(120 + 3 * STOPS)
    def test_many_stops(self):
        self.stop_and_start(STOPS, int(os.environ.get("TRIED_SEED", random.randrange(1_000_000))))

    def stop_among_servers(self, stops, seed):
        """Two servers, of which one is behind and numbers anew whenever it is started; the other one goes on with its numbers, and is
        restarted by `examples/restart` too. Readers go from one to the other."""
        self.note("once: TRIED_SEED=%d" % seed) if stops == STOPS else None
        chance = random.Random(seed)
        self.config = CONFIG.replace("16384", "2048")
        self.leading, self.behind = self.serve(self.config, "--numbers", "numbers"), self.serve(self.config)
        self.process, self.anew = self.leading.process.pid, 0
        self.readers = {it: self.read_of_both(it) for it in self.KINDS}
        first = Feeder(self.leading.feeds, 0, random.Random(seed + 1))
        second = Feeder(self.behind.feeds, 0, random.Random(seed + 2), first)
        first.start()
        second.start()
        for number in range(stops):
            time.sleep(chance.random() * 1.5)
            what = chance.choice(self.KINDS * 2 + ("leading", "behind", "by the script"))
            if what in self.KINDS:
                self.readers[what].end(chance.choice((signal.SIGKILL, signal.SIGTERM)))
                self.readers[what] = self.read_of_both(what)
            elif what == "behind":
                self.number_anew()
            else:
                self.start_again(what == "leading", "held-%d" % number)
        enough = second.fed + 50
        kit.until(lambda: second.fed >= enough, "records that the server behind is fed")
        second.finish()
        first.finish()
        # Whoever is at the other one goes there now.
        self.end_leading()
        for it in self.KINDS:
            self.await_all(it, range(second.begins[-1], second.fed))

    def read_of_both(self, kind):
        wants = ["GE_%s@000000" % it for it in STATIONS]
        both = [self.leading, self.behind]
        return self.reader(both, *wants, "--retry", "1", "--timeout", "20", "--" + kind, kind, "--state", kind + ".state")

    def number_anew(self):
        """The server that is behind is started again, with other numbers that no server gave."""
        self.behind.end(signal.SIGKILL)
        self.anew += 1
        first = 'capacity = 2048\nfirst = "%06X"' % (self.anew * 7_000_003 % (1 << 24))
        kit.write(self.behind.config, self.config.replace("capacity = 2048", first))
        self.behind = self.keep(self.behind.again())

    def end_leading(self):
        kit.end_process(self.process)

        def is_gone():
            with contextlib.suppress(OSError), socket.create_connection((kit.HERE, self.leading.feeds), timeout=1):
                return False
            return True

        kit.until(is_gone, "the end of a server")

    def start_again(self, is_killed, held):
        """The other server is started again, with its file of numbers: it is killed, or ended by the script."""
        if is_killed:
            self.end_leading()
            self.process = self.keep(self.leading.again("--numbers", "numbers")).process.pid
        else:
            self.process = kit.restart_by_script(self, self.leading, self.process, held, "--numbers", "numbers")

    @kit.unreleased
    @kit.limit(90)
    def test_a_few_stops_among_servers(self):
        self.stop_among_servers(10, 96)

    @kit.slow
    @kit.unreleased
    @kit.limit(200 + 4 * STOPS)
    def test_many_stops_among_servers(self):
        self.stop_among_servers(STOPS, int(os.environ.get("TRIED_SEED", random.randrange(1_000_000))))

    def restart_and_go_on(self, restarts, seed):
        """`examples/restart` feeds the server anew what it held, under other numbers, while a reader is killed."""
        chance = random.Random(seed)
        self.server = self.serve(CONFIG, "--numbers", "numbers")
        self.readers = {"archive": self.read_into("archive")}
        feeder = Feeder(self.server.feeds, 0, random.Random(seed + 1))
        feeder.start()
        process = self.server.process.pid
        for number in range(restarts):
            enough = feeder.fed + chance.randint(20, 400)
            kit.until(lambda: feeder.fed >= enough, "records that the server is fed")
            if number % 2:
                self.readers["archive"].end(signal.SIGKILL)
                self.readers["archive"] = self.read_into("archive")
            process = kit.restart_by_script(self, self.server, process, "held-%d" % number, "--numbers", "numbers")
        enough = feeder.fed + 50
        kit.until(lambda: feeder.fed >= enough, "records that the last server is fed")
        feeder.finish()
        self.await_all("archive", range(feeder.begins[-1], feeder.fed))
        self.assert_last_ones_are_missing("archive", feeder.begins, feeder.fed)

    @kit.unreleased
    def test_a_few_planned_restarts(self):
        self.restart_and_go_on(2, 95)
