#!/usr/bin/env python3
"""Proves and builds programs or libraries and all libraries below them, several side by side, and says how far it is.

    tools/build_libraries.py NAME..

Each NAME is a crate, as `seedlinkd`. Programs are proved and built after all libraries.

`rt lib` keeps a crate's folder and those of all libraries below it to itself, so two crates over one library wait for each other.
Here each crate is built in a room of its own, in which it and the libraries below it are hard links. What was built then moves to
the crate's folder, where `rt` finds it as if it had been built there. A signal ends what was started, and leaves no room behind.

How long is left comes from tools/proving_seconds.txt, the processor seconds of each crate, and from how fast this machine was so far.
"""

import math
import os
import shutil
import signal
import subprocess
import sys
import tempfile
import threading
import time
from concurrent.futures import FIRST_COMPLETED, ThreadPoolExecutor, wait

TOP = os.path.dirname(os.path.dirname(os.path.realpath(__file__)))
MEMORY = os.sysconf("SC_PAGE_SIZE") * os.sysconf("SC_PHYS_PAGES")
MEMORY_OF_A_BUILD = 3 << 30  # what a crate takes at most with two jobs, but for the following
LARGE = dict.fromkeys(("protocol", "incidents", "job_base", "job_check", "job_feed", "job_read", "job_serve"), 4 << 30)
PROCESSORS = len(os.sched_getaffinity(0))
USUAL = 20 * 60 * 4 / PROCESSORS  # seconds that the whole program takes, as it is known before anything is done
TRUSTED = 60  # seconds for which that counts as much as what was seen since

started = {}  # the processes that run, by their ids, each the first of a session of its own
is_ending = threading.Event()


class Ended(Exception):
    """A signal came."""

    def __init__(self, number):
        super().__init__(number)
        self.number = number


def session_of(process):
    """The session of a process, or 0 if it is gone."""
    try:
        return os.getsid(process)
    except ProcessLookupError:
        return 0


def end_started():
    """Ends all that was started: `rt`, and what it has started itself, which is in the same session."""
    is_ending.set()
    sessions = set(started)
    for entry in os.listdir("/proc"):
        if entry.isdigit() and session_of(int(entry)) in sessions:
            try:
                os.kill(int(entry), signal.SIGKILL)
            except ProcessLookupError:
                pass


def end_at_signals():
    """Makes a signal end the build in place of this process alone."""

    def end(number, _):
        for each in (signal.SIGINT, signal.SIGTERM, signal.SIGHUP):
            signal.signal(each, signal.SIG_IGN)
        raise Ended(number)

    for number in (signal.SIGINT, signal.SIGTERM, signal.SIGHUP):
        signal.signal(number, end)


def remove_rooms_left():
    """Removes the rooms of earlier builds that were killed: their names have the ids of processes that are gone."""
    for name in os.listdir(TOP):
        owner = name.removeprefix(".build-").partition("-")[0]
        if name.startswith(".build-") and not (owner.isdigit() and session_of(int(owner))):
            shutil.rmtree(f"{TOP}/{name}", ignore_errors=True)


def run(words, folder):
    """Runs a command in a session of its own, and returns what it said if it failed."""
    with subprocess.Popen(words, cwd=folder, stdout=subprocess.PIPE, stderr=subprocess.STDOUT, text=True, start_new_session=True) as process:
        started[process.pid] = process
        if is_ending.is_set():
            end_started()
        try:
            said = process.communicate()[0]
        except Ended:
            end_started()
            raise
        finally:
            del started[process.pid]
    return said if process.returncode else None


def crate_lines():
    """The lines of crates.txt by their crates, from the lowest up."""
    with open(f"{TOP}/crates.txt", encoding="utf-8") as listed:
        lines = [line.strip() for line in listed if line.strip() and not line.startswith("#")]
    return {line.split(":")[0]: line for line in lines}


def below_each(lines):
    """For each crate the libraries of this repository that it stands on, from the lowest up."""
    found = {}
    for name, line in lines.items():
        used = [it for it in line.partition(":")[2].split() if it in found]
        reached = {*used}.union(*(found[it] for it in used))
        found[name] = [it for it in lines if it in reached]
    return found


def weight(name):
    """How long a crate takes to prove, roughly: the lines of its files."""
    files = (f"{at}/{it}" for part in ("src", "specs", "proofs") for at, _, names in os.walk(f"{TOP}/crates/{name}/{part}") for it in names)
    return sum(open(file, "rb").read().count(b"\n") for file in files)


def chains(needs):
    """For each crate the weight of the heaviest chain of crates that begins with it and goes up."""
    heaviest = {}
    for name in reversed(needs):
        above = [it for it in needs if name in needs[it]]
        heaviest[name] = weight(name) + max((heaviest[it] for it in above), default=0)
    return heaviest


def link_crate(name, room):
    """Makes hard links to a crate's files in a room, and to what other crates need of what was built of it."""
    for part in ("src", "specs", "proofs", "out/rlib"):
        if os.path.isdir(f"{TOP}/crates/{name}/{part}"):
            shutil.copytree(f"{TOP}/crates/{name}/{part}", f"{room}/crates/{name}/{part}", copy_function=os.link)


def copy_work(name, room):
    """Copies what was done for a crate before, so that only what changed since is proved anew."""
    if os.path.isdir(f"{TOP}/crates/{name}/out"):
        shutil.rmtree(f"{room}/crates/{name}/out", ignore_errors=True)
        shutil.copytree(f"{TOP}/crates/{name}/out", f"{room}/crates/{name}/out")


def build(name, needs, lines, jobs):
    """Builds one crate over the libraries below it, which are built, and returns what `rt` said if that failed."""
    with tempfile.TemporaryDirectory(prefix=f".build-{os.getpid()}-", dir=TOP) as room:
        for it in [*needs, name]:
            link_crate(it, room)
        copy_work(name, room)
        with open(f"{room}/crates.txt", "w", encoding="utf-8") as listed:
            listed.writelines(f"{lines[it]}\n" for it in [*needs, name])
        said = run(["rt", "lib", "--jobs", str(jobs)], f"{room}/crates/{name}")
        if said is None:
            shutil.rmtree(f"{TOP}/crates/{name}/out", ignore_errors=True)
            os.rename(f"{room}/crates/{name}/out", f"{TOP}/crates/{name}/out")
        return said


class Progress:
    """How far a build is: which crates are done, and since when the others run."""

    def __init__(self, names):
        with open(f"{TOP}/tools/proving_seconds.txt", encoding="utf-8") as table:
            known = dict(line.split()[:2] for line in table if not line.startswith("#"))
        self.seconds = {it: int(known.get(it, 60)) for it in names}
        self.usual_speed = sum(map(int, known.values())) / USUAL
        self.began = time.monotonic()
        self.running, self.done = {}, set()

    def minutes_left(self):
        """About how many minutes are left: the work that is left, at the speed so far."""
        now = time.monotonic()
        part = sum(min(now - since, self.seconds[it] / 2) for it, since in self.running.items())
        done = sum(self.seconds[it] for it in self.done) + part
        work = sum(self.seconds.values())
        speed = (done + TRUSTED * self.usual_speed) / (now - self.began + TRUSTED)
        return math.ceil((work - done) / speed / 60)

    def begins(self, name):
        """A crate begins: says which of how many it is, and how long is left."""
        count, left = len(self.done) + len(self.running) + 1, self.minutes_left()
        self.running[name] = time.monotonic()
        minutes = f"{left} minutes" if left > 1 else "a minute"
        print(f"seedlinkd: proving {name} ({count} of {len(self.seconds)}, about {minutes} left)", file=sys.stderr, flush=True)

    def ends(self, name):
        """A crate is proved and built."""
        del self.running[name]
        self.done.add(name)


def that_fit(ready, running):
    """The first of some crates that have a processor and memory beside those that are being built; one at least, if none is."""
    fitting = []
    for name in ready[: PROCESSORS - len(running)]:
        if sum(LARGE.get(it, MEMORY_OF_A_BUILD) for it in [*running, *fitting, name]) <= MEMORY or not running and not fitting:
            fitting.append(name)
    return fitting


def build_all(needs, lines, progress):
    """Builds crates, each once those below it are built, first those with the heaviest chain above them. Says whether all were built."""
    heaviest = chains(needs)
    left, running = sorted(needs, key=lambda it: -heaviest[it]), {}
    with ThreadPoolExecutor(PROCESSORS) as pool:
        try:
            while left or running:
                ready = that_fit([it for it in left if progress.done.issuperset(needs[it])], [*running.values()])
                for name in ready:
                    jobs = max(2, PROCESSORS // (len(running) + len(ready)))
                    progress.begins(name)
                    left.remove(name)
                    running[pool.submit(build, name, needs[name], lines, jobs)] = name
                for done in wait(running, return_when=FIRST_COMPLETED).done:
                    name, failure = running.pop(done), done.result()
                    if failure is not None:
                        print(f"{failure}\nseedlinkd: {name} was not proved", file=sys.stderr)
                        left = []
                    else:
                        progress.ends(name)
        except Ended:
            end_started()
            raise
    return progress.done.issuperset(needs)


def build_program(name, progress):
    """Proves and builds the program itself. Says whether it was built."""
    progress.begins(name)
    said = run(["rt", "run", "--", "--help"], f"{TOP}/crates/{name}")
    if said is not None:
        print(f"{said[-4000:]}\nseedlinkd: the program was not proved", file=sys.stderr)
    return said is None


def main():
    names = sys.argv[1:]
    lines = crate_lines()
    below = below_each(lines)
    programs = [it for it in names if os.path.isfile(f"{TOP}/crates/{it}/src/main.rt")]
    libraries = {*names}.difference(programs).union(*(below[it] for it in names))
    needs = {it: below[it] for it in lines if it in libraries}
    remove_rooms_left()
    end_at_signals()
    progress = Progress([*needs, *programs])
    try:
        return 0 if build_all(needs, lines, progress) and all(build_program(it, progress) for it in programs) else 1
    except Ended as ended:
        end_started()
        return 128 + ended.number


if __name__ == "__main__":
    sys.exit(main())
