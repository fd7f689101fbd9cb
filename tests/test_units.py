"""What the units run: their command lines with the variables of an instance, as systemd puts them in, over folders of a test."""

import os
import re

import kit
from kit import record

UNIT = "examples/seedlinkd-archive@.service"
STATE_FOLDER = "/var/lib/seedlinkd-archive"
STATION = '[[station]]\nnetwork = "GE"\ncode = "%s"\ndescription = ""\ncapacity = 4\n'
CODES = ["S%03d" % it for it in range(258)]


def lines_of(unit, key):
    return re.findall(r"(?m)^%s=(.*)$" % key, kit.text_of(os.path.join(kit.TREE, unit)))


def words_of(unit, instance, settings):
    """The words that systemd runs: `${NAME}` is a part of one word, and `$NAME` stands for as many words as it has."""
    variables = dict(it.replace("%i", instance).split("=", 1) for it in lines_of(unit, "Environment"))
    variables.update(settings)
    words = []
    for word in lines_of(unit, "ExecStart")[0].replace("%i", instance).split()[1:]:
        if re.fullmatch(r"\$\w+", word):
            words += variables.get(word[1:], "").split()
        else:
            words.append(re.sub(r"\$\{(\w+)\}", lambda it: variables.get(it.group(1), ""), word))
    return [it.replace(STATE_FOLDER, os.path.abspath("state")) for it in words]


@kit.unreleased
class Archives(kit.Test):
    def server(self):
        server = self.serve('title = "T"\nmax_connections = 9\n' + "".join(STATION % it for it in CODES))
        server.feed(*(record(number, code) for number, code in enumerate(CODES)))
        return server

    def instance(self, name, server, **settings):
        """An instance of the unit, with the folders that systemd makes for it."""
        for folder in lines_of(UNIT, "StateDirectory")[0].replace("%i", name).split():
            os.makedirs(os.path.join("state", os.path.relpath(folder, os.path.basename(STATE_FOLDER))), exist_ok=True)
        return self.start(*words_of(UNIT, name, {"SERVERS": server.address, **settings}))

    def wants(self, name, codes):
        return os.path.abspath(kit.write(name, "# a want a line\n" + "".join("GE_%s@0\n" % it for it in codes)))

    def await_records(self, folder, numbers):
        """Waits until an archive has these records, each once."""
        def found():
            days = [data for path, data in kit.files_below(folder).items() if ".D." in path]
            return sorted(kit.identity(data[at : at + 512]) for data in days for at in range(0, len(data), 512))

        kit.until(lambda: found() == sorted(numbers), lambda: "%d records in %s, where %d are" % (len(numbers), folder, len(found())), 100)

    @kit.limit(180)
    def test_more_stations_than_one_reader_asks_for(self):
        """Two instances fill one archive, each with a state of its own."""
        server = self.server()
        archive = STATE_FOLDER + "/sds"
        first = self.instance("west-a", server, WANTS_FILE=self.wants("a.wants", CODES[:255]), ARCHIVE=archive)
        second = self.instance("west-b", server, WANTS_FILE=self.wants("b.wants", CODES[255:]), ARCHIVE=archive)
        self.await_records("state/sds", range(258))
        for it in (first, second):
            self.assertEqual(it.printed(), "")
            self.assertTrue(it.is_running(), it.said())
        for name, count in (("west-a", 255), ("west-b", 3)):
            kit.until(lambda: kit.text_of("state/%s/state" % name).partition("#")[0].count("\n") == count, "the state of " + name)

    def test_a_station_of_two_instances(self):
        """The second one is told, and has added nothing."""
        server = self.server()
        archive = STATE_FOLDER + "/sds"
        self.instance("west-a", server, WANTS_FILE=self.wants("a.wants", CODES[:2]), ARCHIVE=archive)
        self.await_records("state/sds", range(2))
        second = self.instance("west-b", server, WANTS_FILE=self.wants("b.wants", CODES[1:3]), ARCHIVE=archive)
        self.assert_ends(second.await_end(), 1, "seedlinkd: 44 File\n", "another reader adds records of ")
        self.await_records("state/sds", range(2))

    def test_an_instance_without_these_settings(self):
        """Its WANTs are those of WANTS, and its archive is its own."""
        server = self.server()
        self.instance("192.0.2.5:18000", server, WANTS="GE_S000@0 GE_S001@0")
        self.await_records("state/192.0.2.5:18000/sds", range(2))
