#!/usr/bin/env python3
"""Writes what docs/seedlinkd.8 and docs/COMMANDS.md say of the options, from the program's own tables.

    tools/write_manual.py            writes both
    tools/write_manual.py --check    writes nothing, and fails if they differ or if the page leaves out an option or a fault

The tables are crates/command_line/src/tables.rt, a row for each argument of each command. What is written stands between the lines
'begin NAME' and 'end NAME' of each file: `synopsis` and `usage COMMAND` of the page, and `usages` of the page on commands.
What an option does is written by hand. The check wants each option in the part of the page on its command, and each fault of
crates/protocol/src/reason.rt in the list of faults, under its number and name.
"""

import os
import re
import sys

TOP = os.path.dirname(os.path.dirname(os.path.realpath(__file__)))
PAGE = f"{TOP}/docs/seedlinkd.8"
COMMANDS = f"{TOP}/docs/COMMANDS.md"

# What a value is called in the page, by what the program calls it; others are as they are, in small letters.
VALUES = {"A:P": "Ar address : Ns Ar port", "N|Ns": "Ar n Ns Op Li s", "NET_STA": "Ar network Ns _ Ns Ar station"}
SERVERS = {"read": "Ar address : Ns Ar port Ns Op , Ns Ar ..."}

# The widest line of usage.
COLUMNS = 100


def read(path):
    with open(path, encoding="utf-8") as text:
        return text.read()


class Argument:
    """A row of a command's table."""

    def __init__(self, command, kind, texts):
        self.command, self.kind, self.name = command, kind, texts[0]
        self.value = texts[1] if kind in ("Needed", "Value") else "N" if kind == "Number" else None
        self.is_option = kind == "Flag" or self.value is not None

    def page_line(self):
        """Its line of the page's synopsis."""
        if self.is_option:
            value = self.value and VALUES.get(self.value, f"Ar {self.value.lower()}")
            words = " ".join(filter(None, (f"Fl -{self.name}", value)))
        elif self.name == "SERVER":
            words = SERVERS.get(self.command, VALUES["A:P"])
        else:
            words = {"FILE": "Ar"}.get(self.name, f"Ar {self.name.lower()}")
        if self.kind == "Any":
            words += " ..."
        is_wanted = self.kind in ("Wanted", "Several", "Needed")
        return f".{words}" if is_wanted else f".Op {words}"

    def usage_word(self):
        """What it is in a line of usage."""
        if self.name == "SERVER":
            return "A:P[,A:P..]" if self.command in SERVERS else "A:P"
        word = self.name + (".." if self.kind in ("Several", "Any") else "")
        if self.is_option:
            word = f"--{self.name}" + (f" {self.value}" if self.value else "")
        return word if self.kind in ("Wanted", "Several", "Needed") else f"[{word}]"


def commands():
    """The commands with their arguments, in order."""
    source = read(f"{TOP}/crates/command_line/src/tables.rt")
    for table, rows in re.findall(r"^pub static ([A-Z]+): [^=]*= \[(.*?)\];$", source, re.M | re.S):
        command = table.lower()
        found = re.findall(r"\b([A-Z][a-z]+)\((.*?)\),\n", f"{rows.rstrip(',' + chr(10))},\n", re.S)
        yield command, [Argument(command, kind, re.findall(r'"((?:[^"\\]|\\.)*)"', texts)) for kind, texts in found]


def synopsis(tables):
    for command, arguments in tables:
        yield from (".Nm", ".Op Fl v", f".Cm {command}")
        yield from (argument.page_line() for argument in arguments)
    yield from (".Nm", ".Fl -help Op Cm faults", ".Nm", ".Fl -version")


def usage(command, arguments):
    yield from (".It Xo", f".Cm {command}")
    yield from (argument.page_line() for argument in arguments)
    yield ".Xc"


def usage_lines(command, arguments):
    """How a command is used, with lines that go on below its arguments."""
    line = start = f"    seedlinkd {command} "
    for word in (argument.usage_word() for argument in arguments):
        if len(line) + len(word) > COLUMNS:
            yield line.rstrip()
            line = " " * len(start)
        line += f"{word} "
    yield line.rstrip()


def usages(tables):
    yield ""
    for command, arguments in tables:
        yield from usage_lines(command, arguments)
    yield from ("    seedlinkd --help [faults] | --version", "")


def put(text, name, lines):
    """A file with other lines between the marks of that name."""
    marks = re.compile(rf"(^[^\n]*\bbegin {name}\n).*?(^[^\n]*\bend {name}$)", re.M | re.S)
    if len(marks.findall(text)) != 1:
        sys.exit(f"write_manual: there are not two marks for {name}")
    return marks.sub(lambda found: found.group(1) + "".join(f"{line}\n" for line in lines) + found.group(2), text)


def page_with(page, tables):
    page = put(page, "synopsis", synopsis(tables))
    for command, arguments in tables:
        page = put(page, f"usage {command}", usage(command, arguments))
    return page


def commands_with(page, tables):
    return put(page, "usages -->", usages(tables))


def left_out(page, tables):
    """What the page says nothing of: options, in the part on their command, and faults."""
    parts = re.split(r'^\.\\" end usage (\w+)$', page.split(".Sh FILES")[0], flags=re.M)
    texts = dict(zip(parts[1::2], parts[2::2]))
    for command, arguments in tables:
        for argument in filter(lambda one: one.is_option, arguments):
            if f"Fl -{argument.name}" not in texts.get(command, ""):
                yield f"{command} --{argument.name}"
    reasons = re.findall(r'row_of\(\s*(\d+),\s*"(\w+)"', read(f"{TOP}/crates/protocol/src/reason.rt"))
    for number, name in reasons:
        if f"\n.It {number} {name}\n" not in page:
            yield f"{number} {name}"


def main():
    tables = list(commands())
    is_check = sys.argv[1:] == ["--check"]
    failures = []
    for path, written in ((PAGE, page_with), (COMMANDS, commands_with)):
        old = read(path)
        new = written(old, tables)
        if is_check and new != old:
            failures.append(f"{os.path.relpath(path, TOP)} is not what tools/write_manual.py writes")
        elif not is_check:
            with open(path, "w", encoding="utf-8") as text:
                text.write(new)
    failures += [f"docs/seedlinkd.8 leaves out {what}" for what in left_out(read(PAGE), tables)]
    for failure in failures:
        print(f"write_manual: {failure}", file=sys.stderr)
    sys.exit(1 if failures else 0)


main()
