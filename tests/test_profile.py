"""What the pages of the profile and README say of the program: the tables of faults and keys, the examples of refused configurations and of faults that
are explained, and the dialogue of two clients."""

import os
import re
import shutil
import socket

import kit

STATION = '[[station]]\nnetwork = "%s"\ncode = "%s"\ndescription = ""\ncapacity = 256\n'
ISLAND = 'title = "Island"\n' + "".join(STATION % it for it in (("GE", "APE"), ("GE", "WLF"), ("XX", "APE")))
JOBS = ("serve", "feed", "read", "view", "check", "replay", "status")
KINDS = {"Text": "text", "WholeNumber": "whole number", "Table": "table", "Tables": "array of tables"}


def text_of(path):
    with open(os.path.join(kit.TREE, path), encoding="utf-8") as file:
        return file.read()


def with_last_capacity(value):
    """The island's configuration with another capacity of its third station."""
    head, _, tail = ISLAND.rpartition("256")
    return head + value + tail


# ---- faults and keys


def faults_of_sources():
    """The numbers and names of the program's table of reasons."""
    return {(int(number), name) for number, name in re.findall(r'row_of\(\s*(\d+),\s*"(\w+)"', text_of("crates/protocol/src/reason.rt"))}


def faults_of_tables():
    """The numbers and names in the first column of the page's tables, where a cell may have several."""
    cells = re.findall(r"^\| ([^|]*) \|", kit.profile(), re.M)
    return {(int(number), name) for cell in cells for number, name in re.findall(r"\b(\d+) ([A-Z][a-z]\w*)", cell)}


def keys_of_sources():
    """The rows of the program's table of keys: the name, the kind, what is allowed, and what holds if the key is missing."""
    text = text_of("crates/config_explained/src/key.rt")
    lists = re.search(r'LIST_LIMITS: &str =\s*("[^"]*")', text).group(1)
    row = r'(?:required|optional)\(\s*"(\w+)",\s*ValueKind::(\w+),\s*("[^"]*"|LIST_LIMITS),?\s*(?:"([^"]*)",?\s*)?\)'
    return [
        (name, KINDS[kind], limits.replace("LIST_LIMITS", lists).strip('"'), missing or "refused")
        for name, kind, limits, missing in re.findall(row, text)
    ]


def keys_of_page():
    table = kit.profile().split("| Key | Kind | What is allowed | If it is missing |")[1].split("\n\n")[0]
    return re.findall(r"^\| `(\w+)`[^|]* \| ([^|]*) \| ([^|]*) \| ([^|]*) \|$", table, re.M)


# ---- refused configurations


def examples_of_configurations():
    """The fault of each row of the table, the examples in its last column, and whether these are access lists."""
    table = kit.profile().split("## A configuration that is refused")[1].split("\n## ")[0]
    for number, name, outer, examples in re.findall(r"^\| (\d+) (\w+)((?:, in \d+)?) \|.*\| ([^|]*) \|$", table, re.M):
        fault = "24 Access" if outer or (number, name) == ("24", "Access") else "%s %s" % (number, name)
        for example in filter(None, examples.split("; ")):
            yield fault, example, bool(outer)


def config_with(example, is_entry):
    """The island's configuration with an example of the table in it."""
    quoted = re.fullmatch(r"`(.*)`", example)
    if is_entry:
        return ISLAND.replace("\n", '\naccess = "%s"\n' % quoted.group(1), 1)
    if example.startswith("no "):
        return re.sub(r"^%s = .*\n" % example[3:].strip("`"), "", ISLAND, flags=re.M)
    if example.startswith("two stations "):
        return ISLAND + STATION % tuple(example.split()[2:])
    line = quoted.group(1)
    key = line.split(" =")[0]
    if key == "station":
        return ISLAND.split("[[")[0] + line + "\n"
    return re.sub(r"^%s = .*$" % key, line, ISLAND, count=1, flags=re.M)


# ---- options


def options_of_page(command):
    """The options in the table of a command, and what holds without each."""
    section = text_of("docs/COMMANDS.md").split("\n## %s\n" % command)[1].split("\n## ")[0]
    table = section.partition("| Option | Without it | What it does |\n")[2].split("\n\n")[0]
    return [(name, without.replace("`", "")) for name, without in re.findall(r"^\| `--([a-z-]+)[^|]*\| ([^|]*) \|", table, re.M)]


def options_of_help(text):
    """The same of a command's help; `needed` of an option that has to be there."""
    found = []
    for part in re.split(r"^ +(?:-., )?(?=--)", text.partition("\nOptions:\n")[2], flags=re.M)[1:]:
        name = re.match(r"--([a-z-]+)", part).group(1)
        default = re.search(r"\(default: ([^()]*)\)$", " ".join(part.split()))
        if name not in ("verbose", "help"):
            found.append((name, default.group(1) if default else "needed"))
    return found


class Tables(kit.Test):
    def test_each_fault_of_the_program_stands_in_a_table(self):
        self.assertEqual(sorted(faults_of_tables()), sorted(faults_of_sources()))

    def test_help_lists_each_fault_in_the_order_of_the_numbers(self):
        printed = self.run_program("--help", "faults").printed
        listed = [(int(number), name) for number, name in re.findall(r"^ +(\d+) (\w+) +[a-z]", printed, re.M)]
        self.assertEqual(listed, sorted(faults_of_sources()))

    def test_keys_of_a_configuration(self):
        self.assertEqual(len(keys_of_page()), 12)
        self.assertEqual(keys_of_page(), keys_of_sources())

    def test_each_example_of_a_configuration_is_refused_with_the_fault_of_its_row(self):
        examples = list(examples_of_configurations())
        self.assertGreaterEqual(len(examples), 11)
        for fault, example, is_entry in examples:
            kit.write("config.toml", config_with(example, is_entry))
            ended = self.run_program("replay", "config.toml", "/dev/null")
            self.assertEqual((ended.said, ended.status), ("seedlinkd: %s\n" % fault, 1), example)

    @kit.unreleased
    def test_what_holds_without_an_option_is_what_help_says(self):
        for command in JOBS:
            with self.subTest(command=command):
                helped = options_of_help(self.run_program(command, "--help").printed)
                self.assertGreaterEqual(len(helped), 1)
                self.assertEqual(sorted(helped), sorted(options_of_page(command)))

    @kit.unreleased
    def test_lines_of_help_fit_a_terminal(self):
        for words in ((), *((it,) for it in JOBS)):
            for line in self.run_program(*words, "--help").printed.splitlines():
                self.assertTrue(len(line) <= 80 or line.startswith("Usage:"), line)

    @kit.unreleased
    def test_usages_are_those_of_help(self):
        """Each command and each of its options stands in the usages of the page, and no other."""
        part = re.search(r"<!-- begin usages -->\n(.*?)<!-- end usages -->", kit.profile(), re.S).group(1)
        usages = re.split(r"^    seedlinkd ", part, flags=re.M)
        said = {it.split(None, 1)[0]: set(re.findall(r"--([a-z-]+)", it)) for it in usages[1:] if not it.startswith("--")}
        commands = re.findall(r"^  ([a-z]+) ", self.run_program("--help").printed.partition("Commands:")[2].partition("\n\n")[0], re.M)
        options = {}
        for it in commands:
            if it != "help":
                found = re.findall(r"^ +(?:-., )?--([a-z-]+)", self.run_program(it, "--help").printed, re.M)
                options[it] = set(found) - {"help", "verbose"}
        self.assertEqual(said, options)


# ---- faults that are explained


def explained():
    """The commands of the section on faults that are explained, each with the lines that it prints; a reread has no command."""
    section = kit.profile().split("## Faults that are explained")[1].split("\n# ")[0]
    found = []
    for block in re.findall(r"(?:^    .*\n)+", section, re.M):
        lines = [line[4:] for line in block.splitlines()]
        starts = [at for at, line in enumerate(lines) if line.startswith("$ ")] or [-1]
        for at, end in zip(starts, starts[1:] + [len(lines)]):
            found.append((lines[at][2:].split() if at >= 0 else None, lines[at + 1 : end]))
    return found


def fault_of(lines):
    """The number and name of the fault that lines report."""
    return next(it for it in lines if re.match(r"seedlinkd: \d+ ", it)).split(": ", 1)[1]


def job_of(words):
    return next(it for it in words if it in JOBS) if words else "a reread"


def without_blockettes():
    """Three records, of which the last has no blockette."""
    three = bytearray(kit.bytes_of(kit.RECORDS)[: 3 * 512])
    three[2 * 512 + 46 : 2 * 512 + 48] = b"\0\0"
    return bytes(three)


def is_as(printed, wanted):
    """Whether lines are those that are wanted, of which `..` stands for any."""
    if ".." in wanted:
        at = wanted.index("..")
        return printed[:at] == wanted[:at] and printed[len(printed) - len(wanted) + at + 1 :] == wanted[at + 1 :]
    return printed == wanted


class Explained(kit.Test):
    """Each example is run with the files and servers that the text beside it names. Ports are others, which are free."""

    def full_of_clients(self):
        server = self.serve(ISLAND.replace("\n", "\nmax_connections = 1\n", 1))
        self.keep(server.client()).say(b"HELLO\r", b"SeedLink v3.0 ")
        return server

    def full_of_feeds(self):
        server = self.serve(ISLAND)
        kit.write("day.mseed", kit.bytes_of(kit.RECORDS)[:512])
        for _ in range(16):
            self.keep(server.feeder())
        server.followers(16, r"seedlinkd: feed \d+ 127")
        return server

    def holding_records(self):
        server = self.serve(ISLAND)
        kit.write("day.mseed", kit.bytes_of(kit.RECORDS))
        self.assertEqual(self.run_program("feed", server.feed_address, "day.mseed").status, 0)
        return server

    def prepared(self, fault, job):
        """Makes what is there before an example is run: files, and perhaps a server, which is answered."""
        kit.write("island.toml", ISLAND)
        if (fault, job) == ("22 Limit", "serve"):
            head, key, _ = text_of("examples/island.toml").rpartition("capacity = ")
            kit.write("island.toml", head + key + "0\n")
        kit.write("toml.toml", "title = Island\n")
        kit.write("array.toml", 'title = "Island"\naccess = ["10.0.0.7"]\n' + STATION % ("GE", "APE"))
        kit.write("host.toml", 'title = "Island"\naccess = "localhost"\n' + STATION % ("GE", "APE"))
        kit.write("views.script", "open 10.0.0.7\n\n\nopen\n")
        kit.write("day.mseed", without_blockettes())
        os.mkdir("records")
        servers = {
            ("42 Read", "read"): self.full_of_clients,
            ("43 Write", "feed"): self.full_of_feeds,
            ("43 Write", "read"): self.holding_records,
            ("52 BadReply", "feed"): self.holding_records,
        }
        return servers[fault, job]() if (fault, job) in servers else None

    @kit.unreleased
    @kit.rows([("%s of %s" % (fault_of(lines), job_of(words)), at) for at, (words, lines) in enumerate(explained())])
    @kit.limit(30)
    def test_example(self, at):
        words, wanted = explained()[at]
        if words is None:
            self.assertEqual(self.reread(), wanted)
            return
        server = self.prepared(fault_of(wanted), job_of(words))
        ports = [server.clients, server.feeds] if server else [kit.free_port(), kit.free_port()]
        if fault_of(wanted) == "46 Listen":
            taken = kit.taken_port()
            self.addCleanup(taken.close)
            ports[1] = taken.getsockname()[1]
        pairs = [("127.0.0.1:%d" % shown, "%s:%d" % (kit.HERE, real)) for shown, real in zip((18000, 18001), ports)]
        for shown, real in pairs:
            words = [it.replace(shown, real) for it in words]
        # One waits for five seconds itself.
        ended = self.start(*words[1:]).await_end(5 + kit.PATIENCE)
        text = (ended.printed if ".." in wanted else "") + ended.said
        for shown, real in pairs:
            text = text.replace(real, shown)
        self.assertTrue(is_as(text.splitlines(), wanted), "%s\nis printed, and the page has\n%s" % (text, "\n".join(wanted)))

    @kit.unreleased
    def test_a_who_of_view_that_is_no_address_and_no_file(self):
        kit.write("island.toml", ISLAND)
        ended = self.run_program("-v", "view", "island.toml", "10.0.0.300")
        self.assertEqual(ended.said.splitlines(), [
            "seedlinkd: 44 File",
            "  cause: a word is no address and no network, and there is no such file",
            "  file: 10.0.0.300",
            "  reason: No such file or directory (os error 2)",
            "  allowed: an address as 10.0.0.7, a network as 10.0.0.0/8 (0 to 32), or the file of another configuration",
        ])

    def reread(self):
        """What a server says whose configuration gets another capacity."""
        server = self.serve(ISLAND, "--reread", "5", "-v")
        kit.write("next.toml", with_last_capacity("512"))
        os.rename("next.toml", server.config)
        server.await_said("  in the file: ")
        lines = server.said().replace(server.config, "island.toml").splitlines()
        begin = lines.index("seedlinkd: 34 Different")
        return lines[begin : begin + 1] + [it for it in lines[begin + 1 : begin + 20] if it.startswith("  ")]


# ---- the dialogue of two clients


def pieces_of(lines):
    """The pieces of an excerpt, which stand between lines `..`."""
    return [it.strip("\n").split("\n") for it in "\n".join(lines).split("\n..") if it.strip("\n")]


def stand_in_order(pieces, lines):
    """Whether each piece stands whole in the lines, after the one before."""
    start = 0
    for piece in pieces:
        places = [at for at in range(start, len(lines)) if lines[at : at + len(piece)] == piece]
        if not places:
            return False
        start = places[0] + len(piece)
    return True


class Dialogue(kit.Test):
    def replayed(self, *options):
        files = [kit.TREE + "/examples/" + it for it in ("island.toml", "views.script")]
        return self.run_program("replay", *files, *options).printed.splitlines()

    def test_readme_shows_what_replay_prints(self):
        shown = re.search(r"views\.script --text`.*?\n\n((?:    .*\n)+)", text_of("README.md"))
        pieces = pieces_of([it[4:] for it in shown.group(1).splitlines()])
        self.assertTrue(pieces and stand_in_order(pieces, self.replayed("--text")), pieces)

    def test_as_digits_it_has_as_many_takes(self):
        takes = [it for it in self.replayed("--text") if re.match(r"\d+ (<|nothing|end|packet)", it)]
        digits = self.replayed()
        self.assertEqual(len(digits), len(takes))
        for it in digits:
            self.assertRegex(it, r"\A\d+ ([0-9a-f]+|-)( end)?\Z")

    @kit.rows([("in a clone", True), ("installed", False)])
    def test_the_demo_prints_what_readme_shows(self, is_clone):
        """With commands that work where it stands. It runs the program that is on the path if none stands beside it."""
        shutil.copytree(kit.TREE + "/examples", "examples")
        os.mkdir("bin")
        if is_clone:
            kit.write("seedlinkd", '#!/bin/sh\n[ "$1" = --path ] && echo "%s"\n' % kit.PROGRAM)
            os.chmod("seedlinkd", 0o755)
        else:
            os.symlink(kit.PROGRAM, "bin/seedlinkd")
        environment = {**os.environ, "PATH": os.path.abspath("bin") + ":" + os.environ["PATH"]}
        for _ in range(3):
            with socket.create_server(("127.0.0.1", 0)) as first, socket.create_server(("127.0.0.1", 0)) as second:
                ports = [str(it.getsockname()[1]) for it in (first, second)]
            done = kit.ran("examples/demo", *ports, env=environment, timeout=40)
            # A connection may have taken a port by then.
            if b"46 Listen" not in done.stderr:
                break
        self.assertEqual(done.returncode, 0, done.stderr)
        printed = done.stdout.decode().replace(":" + ports[0], ":18000").replace(":" + ports[1], ":18001").splitlines()
        shown = re.search(r"After its version it prints\n\n((?:    .*\n)+)", text_of("README.md"))
        lines = [it[4:] for it in shown.group(1).splitlines()]
        if not is_clone:
            here = " %s/examples/" % os.path.realpath(".")
            lines = [it.replace("$ ./seedlinkd ", "$ seedlinkd ").replace(" examples/", here) for it in lines]
        pieces = pieces_of(lines)
        self.assertTrue(pieces and stand_in_order(pieces, printed), "\n".join(printed))
