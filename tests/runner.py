"""Runs the tests of this folder side by side, each of them by itself, and counts what came of them. `run` begins it."""

import argparse
import glob
import importlib
import json
import os
import queue
import re
import resource
import selectors
import shlex
import shutil
import signal
import socket
import subprocess
import sys
import tempfile
import threading
import time
import unittest

import kit

HERE = os.path.dirname(os.path.realpath(__file__))
TOP = os.path.dirname(HERE)
# Most tests wait.
TESTS_A_PROCESSOR = 2
# For how many seconds something is waited for in a program that is wrong, and in one that does nothing wrong: a control that is
# noticed since the machine is busy would tell nothing.
PATIENCE_IF_WRONG, PATIENCE_IF_RIGHT = 5, 45
LIMIT_IF_WRONG, LIMIT_IF_RIGHT = 20, 120
# What a copy of the repository is made without.
NOT_COPIED = shutil.ignore_patterns("out", ".git", ".unpacked", "__pycache__", ".build-*")


def give_up(text):
    sys.stderr.write("tests/run: %s\n" % text)
    sys.exit(2)


# ---- a process that runs tests, one after the other


class TookTooLong(Exception):
    pass


def work():
    """Runs the tests that lines on standard input name, and prints a line with what came of each. All that it starts is in a process
    group of its own, and if whoever gives it tests is gone, it ends the group."""
    results = os.fdopen(os.dup(1), "w")
    os.dup2(2, 1)
    jobs = queue.Queue()

    def take():
        for line in sys.stdin:
            jobs.put(json.loads(line))
        shutil.rmtree(os.environ["TMPDIR"], ignore_errors=True)
        os.killpg(0, signal.SIGKILL)

    threading.Thread(target=take, daemon=True).start()

    def too_long(*_):
        raise TookTooLong("the test took too long")

    signal.signal(signal.SIGALRM, too_long)
    while True:
        job = jobs.get()
        kit.PROGRAM, kit.TREE, kit.PATIENCE = job["program"], job["tree"], job["patience"]
        module, name = importlib.import_module(job["module"]), job["name"]
        test = getattr(module, job["class"])(name)
        result = unittest.TestResult()
        begun, used = time.monotonic(), processor_seconds()
        signal.alarm(job["limit"])
        try:
            test.run(result)
        except TookTooLong as late:
            result.errors.append((test, str(late)))
        signal.alarm(0)
        wrong = [text for _, text in result.failures + result.errors]
        skipped = [why for _, why in result.skipped]
        json.dump(
            {
                "wrong": wrong[0] if wrong else None,
                "skipped": skipped[0] if skipped and not wrong else None,
                "notes": getattr(test, "notes", []),
                "wall": time.monotonic() - begun,
                "processor": processor_seconds() - used,
            },
            results,
        )
        results.write("\n")
        results.flush()


def processor_seconds():
    """What this process and all that ended below it used."""
    own, below = resource.getrusage(resource.RUSAGE_SELF), resource.getrusage(resource.RUSAGE_CHILDREN)
    return own.ru_utime + own.ru_stime + below.ru_utime + below.ru_stime


# ---- the processes side by side


class Worker:
    def __init__(self, number, environment, room):
        process = os.getpid()
        address = "127.%d.%d.%d" % (100 + process // 250 % 100, process % 250 + 1, number % 250 + 1)
        self.errors = tempfile.TemporaryFile(dir=room)
        self.process = subprocess.Popen(
            [sys.executable, os.path.join(HERE, "run"), "--work"],
            stdin=subprocess.PIPE,
            stdout=subprocess.PIPE,
            stderr=self.errors,
            start_new_session=True,
            env={**environment, "TRIED_HERE": address, "TMPDIR": room},
        )
        self.job = self.deadline = None

    def give(self, job):
        self.job, self.deadline = job, time.monotonic() + job["limit"] + 10
        self.process.stdin.write((json.dumps(job) + "\n").encode())
        self.process.stdin.flush()

    def end(self):
        """Ends it, and all that it started."""
        try:
            os.killpg(self.process.pid, signal.SIGKILL)
        except ProcessLookupError:
            pass
        self.process.wait()


def run_side_by_side(jobs, count, environment, tell, is_wanted=lambda job: True):
    """Runs jobs that are still wanted when it is their turn in so many processes, and tells of each what came of it."""
    room = tempfile.mkdtemp(prefix="tests-")
    waiting, workers, number = list(reversed(jobs)), [], 0
    selector = selectors.DefaultSelector()

    def next_job():
        while waiting:
            job = waiting.pop()
            if is_wanted(job):
                return job
        return None

    def begin(job):
        nonlocal number
        worker = Worker(number, environment, room)
        number += 1
        workers.append(worker)
        selector.register(worker.process.stdout, selectors.EVENT_READ, worker)
        worker.give(job)

    def drop(worker, why):
        """Ends a worker whose test did not end by itself."""
        selector.unregister(worker.process.stdout)
        workers.remove(worker)
        worker.end()
        worker.errors.seek(0)
        said = worker.errors.read().decode("utf-8", "replace")[-2000:]
        tell(worker.job, {"wrong": why + "\n" + said, "skipped": None, "notes": [], "wall": worker.job["limit"], "processor": 0})

    try:
        while waiting or workers:
            while len(workers) < count:
                job = next_job()
                if job is None:
                    break
                begin(job)
            for key, _ in selector.select(0.5):
                worker = key.data
                line = worker.process.stdout.readline()
                if not line:
                    drop(worker, "the process of the test ended")
                    continue
                tell(worker.job, json.loads(line.decode()))
                job = next_job()
                if job is not None:
                    worker.give(job)
                else:
                    selector.unregister(worker.process.stdout)
                    workers.remove(worker)
                    worker.end()
            for worker in [it for it in workers if time.monotonic() > it.deadline]:
                drop(worker, "the test took too long and could not be interrupted")
    finally:
        for worker in workers:
            worker.end()
        shutil.rmtree(room, ignore_errors=True)


# ---- what is run


def tests_of_all():
    """Each test, as a job without its program."""
    found = []
    for path in sorted(glob.glob(os.path.join(HERE, "test_*.py"))):
        name = os.path.basename(path)[:-3]
        module = importlib.import_module(name)
        for group in vars(module).values():
            if isinstance(group, type) and issubclass(group, kit.Test) and group.__module__ == name:
                for method in sorted(it for it in dir(group) if it.startswith("test_")):
                    how = getattr(group, method)
                    found.append(
                        {
                            "shown": "%s.%s" % (name[5:], method[5:]),
                            "module": name,
                            "class": group.__name__,
                            "name": method,
                            "limit": getattr(how, "limit", kit.TIME_LIMIT),
                            "is_slow": getattr(how, "is_slow", False),
                        }
                    )
    return found


def those_named(tests, names):
    """The tests that names stand for."""
    chosen = []
    for name in names:
        exact = [it for it in tests if it["shown"] == name]
        of_file = [it for it in tests if it["module"] == "test_" + re.sub(r"^(tests/)?(test_)?|\.py$", "", name)]
        among = exact or of_file or [it for it in tests if name in it["shown"]]
        if not among:
            give_up("no test has %r in its name" % name)
        chosen += [it for it in among if it not in chosen]
    return chosen if names else tests


def program_of(path):
    """The program that is tried: PATH, or the one that ./seedlinkd names."""
    if path is None:
        asked = subprocess.run([TOP + "/seedlinkd", "--path"], stdout=subprocess.PIPE, check=False)
        if asked.returncode:
            give_up("./seedlinkd has no program to try; --program PATH names one")
        path = asked.stdout.decode().strip()
    path = os.path.abspath(path)
    try:
        said = subprocess.run([path, "--version"], stdout=subprocess.PIPE, stderr=subprocess.PIPE, timeout=20, check=False)
    except subprocess.TimeoutExpired:
        give_up("%s does not answer --version" % path)
    except OSError as error:
        give_up("%s can't be run: %s" % (path, error.strerror))
    if said.returncode or not said.stdout.startswith(b"seedlinkd"):
        give_up("%s is not the program: it answers --version with %r" % (path, (said.stdout + said.stderr)[:80].decode("utf-8", "replace")))
    print("%s: %s" % (path, said.stdout.decode().strip()), flush=True)
    return path


def need_loopback():
    """Each process of tests has an address of its own, of those of IPv4's loopback."""
    for address in ("127.0.0.1", "127.100.1.1"):
        try:
            with socket.create_server((address, 0)) as listener:
                socket.create_connection(listener.getsockname(), timeout=5).close()
        except OSError as error:
            give_up("the tests need IPv4 on loopback, and there is no connection to %s: %s" % (address, error.strerror or error))


class Wrong:
    """A program of `wrong`. It stands before the real one, or changes a copy of the repository, with which the tests are made then."""

    def __init__(self, path):
        with open(path, encoding="utf-8") as file:
            text = file.read()
        self.path, self.name = path, os.path.basename(path)
        noticing = re.search(r"^# noticed by: (.+)$", text, re.M)
        if not noticing:
            give_up("wrong/%s doesn't say which tests should notice it" % self.name)
        by = noticing.group(1).split()
        # A control does nothing wrong, and nobody may notice it.
        self.is_right = by[0] == "nobody"
        self.names, self.tests = by[1:] if self.is_right else by, []
        self.changes_tree = "\n# changes the tree\n" in text
        # Why it could not be made, the tests that noticed it with their reasons, and how many were run.
        self.fault, self.noticed, self.made = None, [], 0
        # How many of these are of what the release does not do yet.
        self.not_yet = 0

    def choose(self, tests, is_all):
        """Takes the tests that its names stand for, and leaves out slow ones, but for all."""
        self.tests = [it for it in those_named(tests, self.names) if is_all or not it["is_slow"]]

    def jobs(self, program, room):
        """The tests that are run against it, with their program and their tree."""
        target = {"program": self.path, "tree": TOP}
        if self.changes_tree:
            tree = os.path.join(room, self.name)
            shutil.copytree(TOP, tree, symlinks=True, ignore=NOT_COPIED)
            changed = kit.ran(self.path, tree)
            if changed.returncode:
                self.fault = changed.stderr.decode("utf-8", "replace").strip()
                return []
            target = {"program": program, "tree": tree}
        return [{**it, **target, **self.limits(it), "wrong": self.name} for it in self.tests]

    def limits(self, test):
        if self.is_right:
            return {"patience": PATIENCE_IF_RIGHT, "limit": max(test["limit"], LIMIT_IF_RIGHT)}
        if test["is_slow"]:
            return {"patience": kit.PATIENCE, "limit": test["limit"]}
        return {"patience": PATIENCE_IF_WRONG, "limit": min(test["limit"], LIMIT_IF_WRONG)}

    def is_not_yet(self):
        """Whether all that could notice it is of what the release does not do yet."""
        return self.fault is None and 0 < self.made == self.not_yet

    def is_as_wanted(self):
        return self.fault is None and bool(self.noticed) != self.is_right

    def line(self):
        """What came of it, with the tests that noticed it and why."""
        if self.fault is not None:
            came = "COULD NOT BE MADE: " + self.fault
        elif self.is_not_yet():
            came = "not tried: " + kit.NOT_YET
        elif self.is_right:
            came = "NOTICED, though it does nothing wrong" if self.noticed else "not noticed, as it should be, by %d tests" % self.made
        else:
            came = "noticed by %d of %d tests" % (len(self.noticed), self.made) if self.noticed else "GOT THROUGH %d tests" % self.made
        shown = self.noticed[: 12 if self.is_right else 3]
        return "\n".join(["%s: %s" % (self.name, came)] + ["    %s: %s" % (test, why[:150]) for test, why in shown])


def wrong_programs(names):
    """Those with these names, or all of them."""
    paths = [it for it in sorted(glob.glob(os.path.join(HERE, "wrong", "*"))) if os.path.isfile(it) and os.access(it, os.X_OK)]
    found = [Wrong(it) for it in paths if not names or os.path.basename(it) in names]
    for name in names:
        if name not in [it.name for it in found]:
            give_up("there is no program %s in tests/wrong" % name)
    return found


def parse_options():
    words = argparse.ArgumentParser(prog="tests/run", description="Tries the program from outside. The last line is `N passed, M failed`.")
    words.add_argument("names", nargs="*", metavar="NAME", help="a file of tests (view), a test (view.TEST), or a part of a test's name")
    words.add_argument("--all", action="store_true", help="also tests that are slow, or need more than Python, and what these notice")
    words.add_argument("--wrong", action="store_true", help="tries the tests, by the programs of tests/wrong; a NAME is one of these")
    words.add_argument("--program", metavar="PATH", help="the program, in place of the one that ./seedlinkd --path names")
    words.add_argument("-j", type=int, default=TESTS_A_PROCESSOR * (os.cpu_count() or 1), metavar="N", help="so many tests side by side")
    words.add_argument("--list", action="store_true", help="prints the names of the tests, and ends")
    words.add_argument("--times", action="store_true", help="prints how long each test took, and of a processor")
    options = words.parse_args()
    if options.j < 1:
        words.error("-j wants a number from 1 on")
    return options


def main():
    options = parse_options()
    signal.signal(signal.SIGTERM, lambda *_: sys.exit(143))
    signal.signal(signal.SIGHUP, lambda *_: sys.exit(129))
    tests = tests_of_all()
    chosen = tests if options.wrong else those_named(tests, options.names)
    wrong = wrong_programs(options.names) if options.wrong else []
    for it in wrong:
        it.choose(tests, options.all)
    if options.wrong and not any(it.tests for it in wrong):
        give_up("slow tests alone notice this: --wrong --all")
    if options.list:
        for it in wrong or chosen:
            print(it.name if options.wrong else it["shown"])
        return 0
    need_loopback()
    program = program_of(options.program)
    begun = time.monotonic()
    passed, failed, processor = run_wrong(wrong, program, options) if options.wrong else run_right(chosen, program, options)
    print("%.1f s, of a processor %.1f s" % (time.monotonic() - begun, processor))
    print("%d passed, %d failed" % (passed, failed))
    return 1 if failed or not passed else 0


def indented(text):
    return "\n".join("    " + line for line in text.rstrip().splitlines())


def run_right(chosen, program, options):
    """Runs tests against the program."""
    jobs = [{**it, "program": program, "tree": TOP, "patience": kit.PATIENCE} for it in chosen]
    jobs.sort(key=lambda it: -it["limit"])
    counts = {"passed": 0, "failed": 0, "skipped": 0, "processor": 0.0}
    seconds = []

    def tell(job, result):
        counts["processor"] += result["processor"]
        seconds.append((result["wall"], result["processor"], job["shown"]))
        for note in result["notes"]:
            print("note: %s" % note, flush=True)
        if result["wrong"]:
            counts["failed"] += 1
            again = ["tests/run", job["shown"], "--program", program] + ["--all"] * job["is_slow"]
            print("FAILED %s\n%s\n    again: %s" % (job["shown"], indented(result["wrong"]), " ".join(map(shlex.quote, again))), flush=True)
        elif result["skipped"]:
            counts["skipped"] += 1
            if not job["is_slow"] or options.all:
                print("skipped %s: %s" % (job["shown"], result["skipped"]), flush=True)
        else:
            counts["passed"] += 1

    run_side_by_side(jobs, options.j, {**os.environ, "TRIED_ALL": "1" if options.all else "0"}, tell)
    if options.times:
        for wall, processor, shown in sorted(seconds):
            print("%7.2f s %7.2f s %s" % (wall, processor, shown))
    if counts["skipped"]:
        print("%d skipped" % counts["skipped"])
    return counts["passed"], counts["failed"], counts["processor"]


def reason_in(text):
    """The line of a failure that says why."""
    lines = [it for it in text.strip().splitlines() if it.strip()]
    reasons = [it for it in lines if re.match(r"[\w.]+(Error|TooLong|Exception|Expired)?: ", it)]
    return (reasons or lines)[-1]


def run_wrong(wrong, program, options):
    """Runs against each wrong program the tests that should notice it, until one does. Passed is what was noticed, and a control that
    nobody noticed."""
    left_out = [it.name for it in wrong if not it.tests]
    wrong = [it for it in wrong if it.tests]
    by_name = {it.name: it for it in wrong}
    processor = [0.0]
    with tempfile.TemporaryDirectory(prefix="trees-") as room:
        jobs = []
        for it in wrong:
            jobs += it.jobs(program, room)

        def tell(job, result):
            processor[0] += result["processor"]
            it = by_name[job["wrong"]]
            it.made += 1
            it.not_yet += result["skipped"] == kit.NOT_YET
            if result["wrong"]:
                it.noticed.append((job["shown"], reason_in(result["wrong"])))
            if options.times:
                print("%7.2f s %s %s %s" % (result["wall"], "noticed" if result["wrong"] else "       ", it.name, job["shown"]), flush=True)

        def is_wanted(job):
            """One test that notices is enough; those that run beside it are shown, too."""
            return not by_name[job["wrong"]].noticed

        environment = {**os.environ, "TRIED_ALL": "1" if options.all else "0", "TRIED_REAL": program, "PYTHONDONTWRITEBYTECODE": "1"}
        run_side_by_side(jobs, options.j, environment, tell, is_wanted)
    for it in wrong:
        print(it.line())
    if left_out:
        print("%d for --all: %s" % (len(left_out), " ".join(left_out)))
    tried = [it for it in wrong if not it.is_not_yet()]
    passed = sum(it.is_as_wanted() for it in tried)
    return passed, len(tried) - passed, processor[0]
