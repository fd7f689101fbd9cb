#!/usr/bin/env python3
"""Writes a configuration of seedlinkd for the stations of a SeisComP seedlink server.

    tools/from_seedlink_ini.py [--segsize-in-records] FILE.. >seedlinkd.toml

Reads seedlink.ini and the files that are given after it, in order; later settings hold. The configuration goes to the standard output,
with a comment for each parameter that has no counterpart and each value that had to be changed; `seedlinkd view --strict` accepts it.
A name of a host can't stand in an access list: it is left out, so nobody is let in who was not. Ends with 1, and says why, if a file
can't be read or has no station. docs/MIGRATING.md has the parameters one by one.
"""

import re
import sys
import unicodedata

# What holds in seedlink if a parameter is not there.
SEGMENTS, SEGSIZE, CONNECTIONS = 50, 8192, 500
MOST_STATIONS, MOST_CAPACITY, MOST_CONNECTIONS, MOST_TITLE, MOST_DESCRIPTION = 1024, 65536, 10000, 100, 60
# What stands in for parameters that have no key in the configuration.
ELSEWHERE = {
    "port": "it is the option --listen",
    "connections_per_ip": "it is the option --per-address",
    "trusted": "nobody is trusted beyond the access lists; who may feed is the option --feed-from",
    "info": "there is no INFO",
    "info_trusted": "there is no INFO",
    "request_log": "it is the option --log",
    "bytespersec": "a client is not slowed down",
    "proc": "records are served as they are fed; a program that makes them feeds them",
    "proc_gap_warn": "gaps are not looked at by the server",
    "stream_check": "each record of a configured station is served",
    "lockfile": "the file of --numbers is locked",
    "filebase": "records are held in memory",
    "buffers": "all that is held is in memory: capacity",
}
# Where nothing has to be said: the station's own name, and what became a key.
KEYS = {"organization", "network", "name", "description", "access", "segments", "segsize", "connections", "encoding", "blanks"}
IS_ENTRY = re.compile(r"\d{1,3}(\.\d{1,3}){3}(/(\d{1,2}|\d{1,3}(\.\d{1,3}){3}))?")


def fail(text):
    sys.stderr.write("from_seedlink_ini: %s\n" % text)
    sys.exit(1)


def words_of(line):
    """The words of a line: an `=`, what stands in quotes as one word, and what else has no space in it."""
    for word in re.finditer(r"""=|"([^"]*)"|'([^']*)'|[^\s="']+""", line):
        yield word.group(0) if word.group(1) is None and word.group(2) is None else word.group(1) or word.group(2) or ""


def sections_of(path):
    """The sections of a file, each with its kind, its name and its parameters: `[seedlink]`, `station GE.APE ..` and `plugin ..`."""
    try:
        with open(path, encoding="utf-8", errors="surrogateescape", newline="\n") as file:
            lines = file.read().split("\n")
    except OSError as error:
        fail("%s: %s" % (path, error.strerror))
    sections = []
    for line in lines:
        line = line.strip()
        if not line or line[0] in "*#":
            continue
        if line.startswith("["):
            sections.append((line.strip("[]").strip().lower(), "", {}))
            continue
        words = list(words_of(line))
        head = words[0].lower() if words else ""
        if head in ("station", "plugin") and len(words) > 1 and words[1] != "=":
            sections.append((head, words[1], {}))
            words = words[2:]
        if not sections:
            fail("%s: %r stands in no section" % (path, line))
        for at, word in enumerate(words):
            if word == "=" and 0 < at < len(words) - 1:
                sections[-1][2][words[at - 1].lower()] = words[at + 1]
    return sections


def is_address(entry):
    numbers = entry.partition("/")
    parts = [int(it) for it in numbers[0].split(".")]
    mask = numbers[2]
    bits = [int(it) for it in mask.split(".")] if mask else [0]
    return max(parts) <= 255 and (max(bits) <= (255 if "." in mask else 32))


def list_of(text):
    """The entries of an access list that are addresses, and those that are not."""
    entries = re.split(r"[\s,]+", text.strip()) if text.strip() else []
    taken = [it for it in entries if IS_ENTRY.fullmatch(it) and is_address(it)]
    return taken, [it for it in entries if it not in taken]


def plain(text, most):
    """A text in printable ASCII of at most so many bytes: letters lose their accents."""
    text = text.encode("utf-8", "surrogateescape").decode("utf-8", "replace")
    for letter, spelled in (("ß", "ss"), ("ø", "o"), ("Ø", "O"), ("æ", "ae"), ("Æ", "AE"), ("ł", "l"), ("Ł", "L"), ("đ", "d"), ("ı", "i")):
        text = text.replace(letter, spelled)
    text = "".join(it for it in unicodedata.normalize("NFKD", text) if not unicodedata.combining(it))
    return "".join(it if " " <= it <= "~" else "?" for it in text)[:most].strip()


def quoted(text):
    return '"%s"' % text.replace("\\", "\\\\").replace('"', '\\"')


def shown(text):
    """A text of the file in a comment: nothing in it ends the line."""
    return "".join(it if it.isprintable() else "?" for it in text.encode("utf-8", "surrogateescape").decode("utf-8", "replace"))


class Writer:
    def __init__(self, in_records):
        self.lines, self.in_records = [], in_records

    def comment(self, text):
        self.lines.append("# " + shown(text))

    def text(self, key, value, most, fallback):
        made = plain(value, most) or fallback
        if made != value:
            self.comment("%s was: %s" % (key, value))
        self.lines.append("%s = %s" % (key, quoted(made)))

    def access(self, value):
        taken, others = list_of(value)
        for entry in others:
            self.comment("left out of access, since it is no address or network: %s" % entry)
        self.lines.append("access = %s" % quoted(" ".join(taken)))

    def number(self, key, value, most):
        made = max(1, min(value, most))
        if made != value:
            self.comment("%s would be %d" % (key, value))
        self.lines.append("%s = %d" % (key, made))

    def others(self, parameters):
        """Says of each other parameter what stands in for it."""
        for name in sorted(parameters):
            if name not in KEYS:
                self.comment("%s = %s: %s" % (name, parameters[name], ELSEWHERE.get(name, "it has no counterpart")))

    def capacity(self, parameters):
        segments, size = (number_in(parameters, name, missing) for name, missing in (("segments", SEGMENTS), ("segsize", SEGSIZE)))
        self.number("capacity", segments * size if self.in_records else segments * size // 512, MOST_CAPACITY)


def number_in(parameters, name, missing):
    text = parameters.get(name, "")
    return int(text) if text.isascii() and text.isdigit() else missing


def codes_of(name, parameters, network):
    """The network and the code of a station, as the configuration has them, and as the file has them."""
    first, dot, second = name.partition(".")
    network = parameters.get("network") or (first if dot else network)
    return (network.upper(), (parameters.get("name") or (second if dot else first)).upper()), (network, parameters.get("name") or second or first)


def write_server(writer, server):
    writer.text("title", server.get("organization", ""), MOST_TITLE, "SeedLink")
    writer.number("max_connections", number_in(server, "connections", CONNECTIONS), MOST_CONNECTIONS)
    if "access" in server:
        writer.access(server["access"])
    else:
        writer.comment("no access: everybody may use a station without a list of its own")
    writer.others(server)


def write_station(writer, codes, written, parameters, server):
    writer.lines.append("\n[[station]]")
    if codes != written:
        writer.comment("the codes were: %s %s" % written)
    writer.lines += ["network = %s" % quoted(codes[0]), "code = %s" % quoted(codes[1])]
    writer.text("description", parameters.get("description", ""), MOST_DESCRIPTION, "")
    writer.capacity({**server, **parameters})
    if "access" in parameters:
        writer.access(parameters["access"])
    writer.others(parameters)


def main(words):
    in_records = "--segsize-in-records" in words
    paths = [it for it in words if it != "--segsize-in-records"]
    if not paths or any(it.startswith("-") for it in paths):
        fail("usage: from_seedlink_ini.py [--segsize-in-records] FILE.. >seedlinkd.toml")
    server, stations, plugins = {}, {}, []
    for path in paths:
        for kind, name, parameters in sections_of(path):
            if kind == "station":
                stations[name] = {**stations.get(name, {}), **parameters}
            elif kind == "plugin":
                plugins.append((name, parameters))
            else:
                server = {**server, **parameters} if kind == "seedlink" else server
    if not stations:
        fail("there is no station in %s" % " ".join(paths))
    writer = Writer(in_records)
    writer.comment("Made by from_seedlink_ini.py of %s" % " ".join(paths))
    write_server(writer, server)
    for name, parameters in plugins:
        writer.comment("plugin %s %s: a program that feeds the server stands in for it" % (name, parameters.get("cmd", "")))
    met = set()
    for name, parameters in stations.items():
        codes, written = codes_of(name, parameters, server.get("network", ""))
        if not (re.fullmatch("[A-Z0-9]{1,2}", codes[0]) and re.fullmatch("[A-Z0-9]{1,5}", codes[1])):
            writer.comment("left out, since its codes are none: station %s, %s %s" % ((name,) + written))
        elif codes in met:
            writer.comment("left out, since an earlier station has its codes: station %s, %s %s" % ((name,) + written))
        elif len(met) == MOST_STATIONS:
            writer.comment("left out, since a server has at most %d: station %s" % (MOST_STATIONS, name))
        else:
            met.add(codes)
            write_station(writer, codes, written, parameters, server)
    if not met:
        fail("no station of %s can be taken" % " ".join(paths))
    print("\n".join(writer.lines))


if __name__ == "__main__":
    main(sys.argv[1:])
