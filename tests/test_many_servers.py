"""examples/many_servers on this machine: a broker, three servers that follow one stream, feeders that publish 200,000 records of 50
stations, and readers at each server.

Meanwhile two servers are killed and started again, one after the other, the broker is stopped and started again, and a reader that
knows all servers changes over twice by itself. It needs Debian's rabbitmq-server and python3-pika.
"""

import contextlib
import hashlib
import os
import re
import signal
import socket
import subprocess
import sys
import time

import kit

EXAMPLE = kit.TOP + "/examples/many_servers"
RECORDS = [sys.executable, kit.TOP + "/tests/many_records.py"]
BROKER = "/usr/lib/rabbitmq/bin/rabbitmq-server"
# The Python that has Debian's python3-pika, as the scripts of the example have it.
PYTHON = "/usr/bin/python3"
STATIONS, EACH = "0-49", 4000
TOTAL = 50 * EACH
CAUGHT_UP = "all that the stream held is written"


def can_connect(port):
    with contextlib.suppress(OSError):
        socket.create_connection((kit.HERE, port), timeout=5).close()
        return True
    return False


def lines_in(path):
    return kit.bytes_of(path).count(b"\n") if os.path.exists(path) else 0


class ManyServers(kit.Test):
    def setUp(self):
        super().setUp()
        self.begun, self.processes = time.monotonic(), []
        self.addCleanup(self.end_processes)

    def end_processes(self):
        for it in reversed(self.processes):
            with contextlib.suppress(ProcessLookupError):
                os.killpg(it.pid, signal.SIGKILL)
            it.wait()

    def say(self, text):
        self.note("%3d s  %s" % (time.monotonic() - self.begun, text))

    def begin(self, words, said, out=None, stdin=subprocess.DEVNULL, environment=None):
        """Begins a program in a session of its own, which says what it says in a file."""
        with open(said, "ab") as err, open(out or said, "ab") as printed:
            process = subprocess.Popen(words, stdin=stdin, stdout=printed, stderr=err, env=environment, start_new_session=True)
        self.processes.append(process)
        return process

    def until(self, holds, what):
        def check():
            # Nothing comes any more once the broker has ended by itself.
            assert self.broker is None or self.broker.poll() is None, "the broker ended: " + kit.text_of("broker.said")[-500:]
            return holds()

        return kit.until(check, what, 120)

    def at(self, port):
        return "%s:%d" % (kit.HERE, port)

    # ---- the broker

    def begin_broker(self):
        """Begins the broker and its table of names, whose ports are at 127.0.0.1: there a connection may have taken them by then."""
        for attempt in range(3):
            self.amqp = kit.free_port()
            with socket.create_server(("127.0.0.1", 0)) as first, socket.create_server(("127.0.0.1", 0)) as second:
                self.distribution, self.names = (it.getsockname()[1] for it in (first, second))
            self.broker, self.broker_starts = None, 0
            kit.write("broker.said", "")
            self.begin(["epmd", "-port", str(self.names)], "epmd.said", environment={**os.environ, "ERL_EPMD_ADDRESS": "127.0.0.1"})
            try:
                return self.start_broker()
            except AssertionError:
                self.end_processes()
                if attempt == 2:
                    raise

    def start_broker(self):
        room = os.getcwd()
        arguments = "-kernel inet_dist_use_interface {127,0,0,1}"
        self.broker = None
        self.broker = self.begin([BROKER], "broker.said", environment={
            **os.environ, "HOME": room, "RABBITMQ_BASE": room, "RABBITMQ_MNESIA_BASE": room + "/mnesia", "RABBITMQ_LOG_BASE": room + "/log",
            "RABBITMQ_PID_FILE": room + "/pid", "RABBITMQ_CONFIG_FILE": room + "/rabbitmq",
            "RABBITMQ_ENABLED_PLUGINS_FILE": room + "/plugins",
            "RABBITMQ_NODENAME": "seedlink@localhost", "ERL_CRASH_DUMP": room + "/crash", "RABBITMQ_NODE_IP_ADDRESS": kit.HERE,
            "RABBITMQ_NODE_PORT": str(self.amqp), "RABBITMQ_DIST_PORT": str(self.distribution), "ERL_EPMD_ADDRESS": "127.0.0.1",
            "ERL_EPMD_PORT": str(self.names), "RABBITMQ_SERVER_ADDITIONAL_ERL_ARGS": arguments,
        })
        self.broker_starts += 1

        def said():
            return kit.text_of("broker.said")

        self.until(lambda: said().count("completed with") >= self.broker_starts, lambda: "the broker: " + said()[-500:])

    def stop_broker(self):
        """Ends the broker by the number that it has written, and waits for it."""
        broker, self.broker = self.broker, None
        os.kill(int(kit.text_of("pid")), signal.SIGTERM)
        broker.wait(60)

    # ---- servers and readers

    def start_server(self, number):
        said = "server%d.said" % number
        kit.write(said, "")
        words = [PYTHON, EXAMPLE + "/serve_stream", "stations.toml", "--listen", self.at(self.listen[number])]
        words += ["--feed", self.at(self.feeds[number]), "--program", kit.PROGRAM, "--broker", self.at(self.amqp)]
        self.servers[number] = self.begin(words, said)

    def await_caught_up(self, number):
        self.until(lambda: CAUGHT_UP in kit.text_of("server%d.said" % number), "server %d" % number)

    def start_reader(self, name, *servers):
        """A reader that goes on after the lines that it has. With several servers it asks the next one when one is gone."""
        wants = subprocess.run(RECORDS + ["wants", STATIONS, name + ".lines"], stdout=subprocess.PIPE, check=True).stdout.decode().split()
        addresses = ",".join(self.at(self.listen[it]) for it in servers)
        words = [kit.PROGRAM, "read", addresses] + wants + (["--retry", "1"] if len(servers) > 1 else [])
        self.readers[name] = self.begin(words, name + ".said", name + ".lines")

    def kill_server(self, number, reader):
        """Kills a server, and waits until what belongs to it has ended, also the reader that knows it alone."""
        parent = self.servers[number]
        for child in kit.text_of("/proc/%d/task/%d/children" % (parent.pid, parent.pid)).split():
            if "serve" in kit.text_of("/proc/%s/cmdline" % child).split("\0"):
                os.kill(int(child), signal.SIGKILL)
        self.readers[reader].wait(60)
        parent.wait(60)
        counts = lines_in(reader + ".lines"), lines_in("D.lines")
        self.say("server %d is killed; reader %s has %d records, and reader D %d" % ((number, reader) + counts))

    def go_on(self, number, reader):
        """A server is started again, and the reader goes on once the server has what the reader has."""
        self.start_server(number)
        self.await_caught_up(number)
        self.say("server %d was started again, and has been fed all that the stream held" % number)
        self.until(lambda: self.holds_the_last_of(number, reader), "the records of reader %s at server %d" % (reader, number))
        self.start_reader(reader, number)
        self.say("reader %s goes on at server %d, with %d records" % (reader, number, lines_in(reader + ".lines")))

    def holds_the_last_of(self, number, reader):
        """Whether a server holds the last record of each station that a reader has: what `follow` wrote may not have been read yet."""
        last = {line.split()[2]: line for line in kit.text_of(reader + ".lines").splitlines()}
        wants = ["GE_%s@%s" % (station, line.split()[0]) for station, line in last.items()]
        words = [kit.PROGRAM, "read", self.at(self.listen[number])] + wants + ["--fetch"]
        return set(last.values()) <= set(kit.ran(*words, timeout=60).stdout.decode().splitlines())

    def held_by(self, number):
        """A sum over all records that a server holds, in its order."""
        wants = subprocess.run(RECORDS + ["wants", STATIONS, os.devnull], stdout=subprocess.PIPE, check=True).stdout.decode().split()
        words = [kit.PROGRAM, "read", self.at(self.listen[number])] + wants + ["--fetch", "--output", "-"]
        return hashlib.sha256(subprocess.run(words, stdout=subprocess.PIPE, stderr=subprocess.DEVNULL, check=True).stdout).hexdigest()

    def await_records(self, count):
        self.until(lambda: lines_in("A.lines") >= count, lambda: "%d records, and reader A has %d" % (count, lines_in("A.lines")))

    def publish(self, stations, rate, number):
        """Has records of stations published, by `publish` itself or by a feed."""
        made = subprocess.Popen(RECORDS + ["make", stations, str(EACH), str(rate)], stdout=subprocess.PIPE, start_new_session=True)
        self.processes.append(made)
        words = [PYTHON, EXAMPLE + "/publish", "--broker", self.at(self.amqp)]
        if number:
            words = [kit.PROGRAM, "feed", self.at(self.door), "/dev/stdin"]
        process = self.begin(words, "feed%d.said" % number, stdin=made.stdout)
        made.stdout.close()
        return process

    def prepare(self):
        if not os.path.exists(BROKER) or subprocess.run([PYTHON, "-c", "import pika"], stderr=subprocess.DEVNULL, check=False).returncode:
            self.skipTest("there is no broker: apt-get install rabbitmq-server python3-pika")
        self.door, *ports = [kit.free_port() for _ in range(7)]
        self.listen, self.feeds = dict(zip((1, 2, 3), ports[:3])), dict(zip((1, 2, 3), ports[3:]))
        self.servers, self.readers = {}, {}
        config = subprocess.run(RECORDS + ["config", STATIONS, str(EACH)], stdout=subprocess.PIPE, check=True).stdout
        kit.write("stations.toml", config)
        kit.write("plugins", "[].\n")
        for name in "ABCD":
            kit.write(name + ".lines", "")
        self.begin_broker()
        self.say("a broker")

    @kit.slow
    @kit.limit(600)
    def test_each_reader_gets_each_record_once_in_order_with_the_same_numbers(self):
        self.prepare()
        # One server begins before anything is published, one while the stream is new, and the third one later.
        self.start_server(1)
        self.start_server(2)
        words = [PYTHON, EXAMPLE + "/publish", "--broker", self.at(self.amqp)]
        self.begin(words + ["--listen", self.at(self.door)], "door.said")
        self.until(lambda: can_connect(self.door), "publish --listen")
        feeders = [self.publish("0-9", 1200, 0), self.publish("10-29", 2400, 1), self.publish("30-49", 2400, 2)]
        self.say("three feeders publish %d records of 50 stations" % TOTAL)
        for it in (1, 2):
            self.await_caught_up(it)
        self.start_reader("A", 1)
        self.start_reader("B", 2)
        self.await_records(20_000)
        self.start_server(3)
        self.await_caught_up(3)
        self.start_reader("C", 3)
        self.start_reader("D", 2, 3, 1)
        self.say("three servers, readers A, B and C at each, and D, which knows all, at server 2")
        self.await_records(40_000)
        self.kill_server(2, "B")
        self.go_on(2, "B")
        self.await_records(90_000)
        self.stop_broker()
        self.say("the broker is stopped; reader A has %d records" % lines_in("A.lines"))
        self.start_broker()
        self.say("the broker is started again")
        self.await_records(130_000)
        self.kill_server(3, "C")
        self.go_on(3, "C")
        for it in feeders:
            self.assertEqual(it.wait(300), 0, "a feeder was told that not all was confirmed")
        self.say("the feeders were told that all is confirmed")
        for name in "ABCD":
            path = name + ".lines"
            self.until(lambda: lines_in(path) >= TOTAL, lambda: "%d records in %s, which has %d" % (TOTAL, path, lines_in(path)))
            done = subprocess.run(RECORDS + ["check", STATIONS, str(EACH), path], stderr=subprocess.PIPE, check=False)
            self.assertEqual((done.returncode, done.stderr), (0, b""))
            self.assertEqual(kit.bytes_of(path), kit.bytes_of("A.lines"))
            self.say("reader %s has %d records: each once, in order, by number" % (name, lines_in(path)))
        lost = re.findall(r"^seedlinkd: 4[27] .*", kit.text_of("D.said"), re.M)
        self.assertGreaterEqual(len(lost), 2)
        self.say("reader D lost two servers: " + "; ".join(lost))
        self.assertEqual(len({self.held_by(it) for it in (1, 2, 3)}), 1)
        self.say("the three servers hold the same %d records in the same order" % TOTAL)
