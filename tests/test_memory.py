"""Jobs of which one allocation is refused: each in turn, from the first one on, until a run makes none that is refused.

A refused allocation answers null, by a small library that stands before the C library, for which a C compiler is needed. A job then
does all that it does otherwise, if it can do without that memory; or it ends with 25, or with the fault of what it could not do without
it: write (43), connect (47), keep numbers (49) or a state (53). What it printed and wrote is a beginning of what it prints and writes.
"""

import contextlib
import itertools
import os
import re
import shutil
import subprocess
from concurrent.futures import ThreadPoolExecutor

import kit
from kit import record

REFUSING = """
#define _GNU_SOURCE
#include <dlfcn.h>
#include <fcntl.h>
#include <stddef.h>
#include <limits.h>
#include <stdlib.h>
#include <string.h>
#include <unistd.h>

static unsigned long made, due;

/* Only in the program itself, and not in what may have started it. */
__attribute__((constructor)) static void begin(void) {
    char path[PATH_MAX];
    ssize_t length = readlink("/proc/self/exe", path, sizeof path - 1);
    path[length > 0 ? length : 0] = 0;
    due = strcmp(path, getenv("REFUSED_IN")) ? 0 : strtoul(getenv("REFUSED_ALLOCATION"), NULL, 10);
    made = 0;
}

/* A file tells that the allocation was made that is refused. */
static int is_refused(void) {
    if (++made != due) return 0;
    close(open(getenv("REFUSED_MARK"), O_WRONLY | O_CREAT, 0600));
    return 1;
}

void *malloc(size_t size) {
    static void *(*next)(size_t);
    if (!next) next = (void *(*)(size_t))dlsym(RTLD_NEXT, "malloc");
    return is_refused() ? NULL : next(size);
}

void *calloc(size_t count, size_t size) {
    static void *(*next)(size_t, size_t);
    if (!next) next = (void *(*)(size_t, size_t))dlsym(RTLD_NEXT, "calloc");
    return is_refused() ? NULL : next(count, size);
}

void *realloc(void *old, size_t size) {
    static void *(*next)(void *, size_t);
    if (!next) next = (void *(*)(void *, size_t))dlsym(RTLD_NEXT, "realloc");
    return is_refused() ? NULL : next(old, size);
}
"""
OUT_OF_MEMORY = "seedlinkd: 25 OutOfMemory\n"
# The faults of what a job could not do without memory.
FAULTS = {"read": ("43 Write", "47 Connect", "53 State"), "serve": ("49 Numbers",)}
EXAMPLES = kit.TOP + "/examples/"
# The words of jobs. OF is the address of a server that holds the records of the example, and FEEDS that of its feeds.
JOBS = [
    ("replay", ["replay", EXAMPLES + "island.toml", EXAMPLES + "transfer.script"]),
    ("replay as text", ["replay", EXAMPLES + "island.toml", EXAMPLES + "views.script", "--text"]),
    ("view of an address", ["view", EXAMPLES + "island.toml", "10.0.0.7"]),
    ("view of a network", ["view", EXAMPLES + "island.toml", "10.0.0.0/8"]),
    ("view of a change", ["view", EXAMPLES + "island.toml", EXAMPLES + "loopback.toml"]),
    ("check", ["check", kit.RECORDS]),
    ("check of streams", ["check", kit.RECORDS, "--quiet", "--summary", "--gaps", "--iso"]),
    ("check by a configuration", ["check", "fed", "--config", EXAMPLES + "loopback.toml"]),
    ("serve", ["serve", EXAMPLES + "loopback.toml", "--listen", kit.HERE + ":0", "--feed", kit.HERE + ":0", "--turns", "1"]),
    ("serve with numbers", ["serve", EXAMPLES + "loopback.toml", "--listen", kit.HERE + ":0", "--feed", kit.HERE + ":0", "--turns", "1",
                            "--numbers", "numbers"]),
    ("read", ["read", "OF", "GE_APE", "XX_APE:HH?", "CH_DAVOX", "--fetch"]),
    ("read to a file", ["read", "OF", "GE_APE", "--fetch", "--output", "read", "--state", "state"]),
    ("read to an archive", ["read", "OF", "GE_APE", "--fetch", "--archive", "archive", "--state", "state"]),
    ("feed", ["feed", "FEEDS", "fed"]),
]
PROCESSES = 4


class Refusing(kit.Test):
    def setUp(self):
        super().setUp()
        compiler = next(filter(None, map(shutil.which, ("cc", "gcc", "clang"))), None)
        if compiler is None:
            self.skipTest("there is no C compiler")
        kit.write("refusing.c", REFUSING)
        subprocess.run([compiler, "-O1", "-shared", "-fPIC", "-o", "refusing.so", "refusing.c", "-ldl"], check=True)
        self.library = os.path.abspath("refusing.so")

    def refusing(self, due):
        """The environment in which the `due`-th allocation is refused, and the file that tells so."""
        mark, program = os.path.abspath("refused-%d" % due), os.path.realpath(os.environ.get("TRIED_REAL", kit.PROGRAM))
        refused = {"LD_PRELOAD": self.library, "REFUSED_IN": program, "REFUSED_ALLOCATION": str(due), "REFUSED_MARK": mark}
        return {**os.environ, **refused}, mark


class Jobs(Refusing):
    def run_once(self, words, due):
        """Runs a job in a folder of its own, with its `due`-th allocation refused. What came of it, and whether it was refused one."""
        folder = os.path.abspath("run-%d" % due)
        kit.write(folder + "/fed", b"".join(record(it, "APE") for it in range(3)))
        environment, mark = self.refusing(due)
        done = subprocess.run([kit.PROGRAM] + words, cwd=folder, env=environment, stdin=subprocess.DEVNULL, stdout=subprocess.PIPE,
                              stderr=subprocess.PIPE, timeout=60, check=False)
        files = {path: data for path, data in kit.files_below(folder).items() if path != "fed" and not path.endswith((".lock", ".new"))}
        shutil.rmtree(folder)
        return (done.returncode, done.stdout.decode(), done.stderr.decode(), files), os.path.exists(mark)

    def wrong_with(self, came, whole, job):
        """What is wrong with a run of which an allocation was refused; nothing, if it did all or ended with a fault that it may have."""
        status, printed, said, files = came
        if came == whole:
            return None
        faults = [OUT_OF_MEMORY] + ["seedlinkd: %s\n" % it for it in FAULTS.get(job, ())]
        if status != 1 or not said.endswith(tuple(faults)):
            return "status %d, and it said %r" % (status, said)
        if not whole[1].startswith(printed):
            return "it printed %r" % printed[-200:]
        for path, data in files.items():
            if not path.startswith(("state", "numbers")) and not whole[3].get(path, b"").startswith(data):
                return "%s is no beginning of what it is" % path
        return None

    @kit.slow
    @kit.rows([(name, name, words) for name, words in JOBS])
    def test_refused_in(self, name, words):
        if "OF" in words or "FEEDS" in words:
            server = self.serve(EXAMPLES + "loopback.toml")
            server.feed(kit.bytes_of(kit.RECORDS))
            words = [{"OF": server.address, "FEEDS": server.feed_address}.get(it, it) for it in words]
        whole, _ = self.run_once(words, 0)
        self.assertEqual((whole[0], whole[2]), (0, ""))
        counts = {"all": 0, "out of memory": 0, "another fault": 0}
        for due, came in enumerate(self.each_refused(words), 1):
            wrong = self.wrong_with(came, whole, words[0])
            self.assertIsNone(wrong, "allocation %d: %s" % (due, wrong))
            counts["all" if came == whole else "out of memory" if came[2].endswith(OUT_OF_MEMORY) else "another fault"] += 1
        self.assertGreater(counts["out of memory"], 0)
        self.note("%s: %d allocations, %s" % (name, sum(counts.values()), ", ".join("%d %s" % (counts[it], it) for it in counts)))

    def each_refused(self, words):
        """What came of a job with each of its allocations refused, until it makes none that is refused."""
        with ThreadPoolExecutor(PROCESSES) as pool:
            for first in itertools.count(1, 32):
                dues = range(first, first + 32)
                for came, was_refused in pool.map(lambda it: self.run_once(words, it), dues):
                    if not was_refused:
                        return
                    yield came


class Serving(Refusing):
    """A server that is refused an allocation while feeds and clients come. Others are served, and whoever comes after it is whole."""

    def serve_refusing(self, due):
        """A server that takes clients, its ports and the file that tells that an allocation was refused; or none if it ended before."""
        environment, mark = self.refusing(due)
        words = ["--listen", kit.HERE + ":0", "--feed", kit.HERE + ":0", "--log"]
        server = self.start("serve", EXAMPLES + "loopback.toml", *words, environment=environment)
        kit.until(lambda: not server.is_running() or "seedlinkd: serving" in server.said(), lambda: server.shown("the first line"))
        match = re.search(r"at [\d.]+:(\d+), feeds at [\d.]+:(\d+)$", server.said(), re.M)
        if match:
            ports = int(match.group(1)), int(match.group(2))
            with contextlib.suppress(OSError):
                # Whoever is answered, or shut, was seen by a server that goes on.
                client = kit.Client(ports[0])
                client.send(b"HELLO\r")
                client.stop()
                client.rest()
            with contextlib.suppress(OSError):
                kit.Client(ports[0]).leave()
                return server, ports, mark
        ended = server.await_end()
        self.assertTrue(ended.status == 1 and ended.said.endswith(OUT_OF_MEMORY), "allocation %d: %s" % (due, ended.all()))
        return None, None, mark

    def first_of_serving(self):
        """The first allocation of a server that has begun. Each one before ends it: `Jobs` refuses these."""
        low, high = 1, 4096
        while low < high:
            middle = (low + high) // 2
            server = self.serve_refusing(middle)[0]
            low, high = (low, middle) if server else (middle + 1, high)
            if server:
                server.end()
        return low

    def play(self, port_of_clients, port_of_feeds, first):
        """What two clients fetch at once, after three records were fed."""
        feed = kit.Client(port_of_feeds)
        with contextlib.suppress(OSError):
            feed.send(b"".join(record(it, "APE") for it in range(first, first + 3)))
            feed.stop()
            feed.rest()
        feed.leave()
        clients, came = [kit.Client(port_of_clients) for _ in range(2)], []
        for it in clients:
            with contextlib.suppress(OSError):
                it.send(b"STATION APE GE\rFETCH\rEND\r")
        for it in clients:
            data = b""
            with contextlib.suppress(OSError):
                for piece in iter(lambda: it.socket.recv(1 << 16), b""):
                    data += piece
            it.leave()
            came.append(data)
        return came

    def identities(self, data, is_whole):
        """The records that a client was handed, after its two answers; or of as much as it was handed of these."""
        answers = kit.OK * 2
        if not is_whole and len(data) < len(answers):
            self.assertTrue(answers.startswith(data), data)
            return []
        self.assertTrue(data.startswith(answers), data[:40])
        packets = data[len(answers) :]
        if is_whole or packets.endswith(b"END"):
            self.assertTrue(packets.endswith(b"END"), packets[-40:])
            packets = packets[:-3]
        return [it for _, it in kit.packets_of(packets[: len(packets) // 520 * 520])]

    @kit.slow
    @kit.limit(180)
    def test_who_comes_after_a_refused_allocation_is_served(self):
        first = self.first_of_serving()
        for due in itertools.count(first):
            server, ports, mark = self.serve_refusing(due)
            self.assertIsNotNone(server, "allocation %d" % due)
            came = self.play(*ports, 0)
            if not os.path.exists(mark):
                break
            # A feed that is shut brings fewer records to both; a client that is shut has a beginning of what the other one has.
            whole = [self.identities(it, True) for it in came if it.endswith(b"END")]
            self.assertTrue(whole and whole[0] == list(range(len(whole[0]))), "allocation %d: %s" % (due, whole))
            if len(whole) < 2:
                self.assertEqual(whole[0], [0, 1, 2], "allocation %d" % due)
            for it in came:
                got = self.identities(it, False)
                self.assertEqual(got, whole[0][: len(got)], "allocation %d" % due)
            for it in self.play(*ports, 3):
                self.assertEqual(self.identities(it, True)[-3:], [3, 4, 5], "allocation %d" % due)
            self.assertTrue(server.is_running(), server.said())
            server.end()
        self.assertGreater(due, first + 10)
        self.note("serve with a feed and two clients: %d allocations, each of which cost one of them alone" % (due - first))
