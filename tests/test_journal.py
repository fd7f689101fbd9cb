"""What the log says of clients: why a station was refused, and which stations were read."""

import re

import kit
from kit import ERROR, GREETING, OK, packet, record

# What a client sends that is refused, and what the line of the log says of it. ZZ SHUT is closed, and the others are not there.
REFUSED = [
    ("closed", b"STATION SHUT ZZ\r", "ZZ SHUT"),
    ("unknown", b"STATION NONE ZZ\r", "ZZ NONE"),
    ("closed, without a network", b"STATION SHUT\r", "SHUT"),
    ("unknown, without a network", b"station NONE\r\n", "NONE"),
    ("in another network", b"STATION APE ZZ\r", "ZZ APE"),
    ("in small letters", b"STATION ape ge\r", "ge ape"),
    ("of eight bytes", b"STATION ABCDEFGH ABCDEFGH\r", "ABCDEFGH ABCDEFGH"),
    ("of more than eight bytes", b"STATION ABCDEFGHIJKLMN OPQRSTUVWXYZ\r", "OPQRSTUV ABCDEFGH"),
    ("with bytes that don't print", b"STATION \x1b[31m\x07 \xff\x00\r", "?? ?[31m?"),
    ("with a wildcard", b"STATION * GE\r", "GE *"),
]


def station(network, code, access="0.0.0.0/0"):
    return '[[station]]\nnetwork = "%s"\ncode = "%s"\ndescription = ""\ncapacity = 4\naccess = "%s"\n' % (network, code, access)


def said_of(server, what):
    """The lines of a log that begin with that word, without what all begin with."""
    return [it[len("seedlinkd: ") :] for it in server.said().splitlines() if it.startswith("seedlinkd: %s " % what)]


def refused(number, *codes):
    return ["refused %d 127.0.0.1 STATION %s" % (number, it) for it in codes]


@kit.unreleased
class Journal(kit.Test):
    @kit.rows(REFUSED)
    def test_a_refused_station_has_a_line(self, said, codes):
        server = self.serve()
        client = self.keep(server.client())
        client.say(b"HELLO\r" + said, GREETING + ERROR)
        server.await_said("STATION")
        self.assertEqual(said_of(server, "refused"), refused(0, codes))

    def test_what_is_answered_ok_has_no_line(self):
        server = self.serve()
        client = self.keep(server.client())
        client.say(b"STATION APE GE\rSELECT BHZ\rSELECT BH?\rINFO ID\rEND\rDATA\r", OK + OK + OK + ERROR + ERROR + OK)
        client.say(b"STATION NONE\r", ERROR)
        server.await_said("STATION")
        self.assertEqual(said_of(server, "refused"), refused(0, "NONE"))
        self.assertEqual(said_of(server, "reads"), [])

    def test_lines_that_come_at_once_are_told_each(self):
        server = self.serve()
        client = self.keep(server.client())
        names = ["N%02d" % number for number in range(40)]
        client.say(b"".join(b"STATION %b XX\r\n" % it.encode() for it in names), ERROR * 40)
        server.await_said("XX N39")
        self.assertEqual(said_of(server, "refused"), refused(0, *["XX " + it for it in names]))

    def test_each_station_has_one_line_a_client(self):
        server = self.serve()
        first, second = self.keep(server.client()), self.keep(server.client())
        for client in (first, second, first):
            client.say(b"STATION NONE GE\rSTATION NONE\rSTATION NONE GE\r", ERROR * 3)
        first.say(b"BYE\r", b"")
        first.over()
        second.say(b"BYE\r", b"")
        second.over()
        server.await_said("seedlinkd: close ", 2)
        self.assertEqual(said_of(server, "refused"), refused(0, "GE NONE", "NONE") + refused(1, "GE NONE", "NONE"))
        self.assertEqual(sorted(said_of(server, "close")), [
            "close 0 127.0.0.1 bytes %d refused 4" % (6 * len(ERROR)), "close 1 127.0.0.1 bytes %d refused 1" % (3 * len(ERROR))])

    def test_at_most_64_stations_of_a_client_have_a_line(self):
        server = self.serve()
        client = self.keep(server.client())
        for number in range(100):
            client.say(b"STATION N%d XX\r" % number, ERROR)
        client.leave()
        server.await_said("seedlinkd: close ")
        self.assertEqual(said_of(server, "refused"), refused(0, *["XX N%d" % number for number in range(64)]))
        self.assertEqual(said_of(server, "close"), ["close 0 127.0.0.1 bytes %d refused 36" % (100 * len(ERROR))])
        # Another client begins anew.
        another = self.keep(server.client())
        another.say(b"STATION N1 XX\r", ERROR)
        server.await_match(r"^seedlinkd: refused \d+ 127.0.0.1 STATION XX N1$")

    def test_the_stations_of_a_transfer_have_a_line_each(self):
        config = kit.CENTRE.replace('access = ""', 'access = "0.0.0.0/0"')
        server = self.serve(config)
        client = self.keep(server.client())
        client.say(
            b"STATION WLF GE\rTIME 2024,1,1,0,0,0\rSTATION SHUT ZZ\rSTATION APE GE\rSELECT BHZ\rFETCH 000001\rSTATION WLF\rDATA\r",
            OK * 8)
        server.is_quiet(client)
        self.assertEqual(said_of(server, "reads"), [])
        client.send(b"END\r")
        server.await_said("seedlinkd: reads ", 2)
        self.assertEqual(said_of(server, "reads"), ["reads 0 127.0.0.1 GE WLF DATA", "reads 0 127.0.0.1 GE APE FETCH"])

    def test_a_transfer_that_is_asked_for_at_once_is_told_as_it_begins(self):
        server = self.serve()
        client = self.keep(server.client())
        client.say(b"STATION APE GE\rFETCH\rSTATION WLF GE\rTIME\rSTATION NONE GE\rEND\r", OK * 4 + ERROR)
        server.await_said("seedlinkd: reads ", 2)
        self.assertEqual(said_of(server, "refused"), refused(0, "GE NONE"))
        self.assertEqual(said_of(server, "reads"), ["reads 0 127.0.0.1 GE APE FETCH", "reads 0 127.0.0.1 GE WLF TIME"])

    def test_in_uni_station_mode_the_first_station_is_told(self):
        server = self.serve()
        client = self.keep(server.client())
        client.send(b"SELECT BHZ\rTIME 2024,1,1,0,0,0\r")
        server.await_said("seedlinkd: reads ")
        self.assertEqual(said_of(server, "reads"), ["reads 0 127.0.0.1 GE APE TIME"])

    def test_a_transfer_that_ends_at_once_is_told_before_its_client_is_gone(self):
        server = self.serve()
        server.feed(record(1, "APE"))
        client = self.keep(server.client())
        client.say(b"STATION APE GE\rFETCH\rEND\r", OK + OK + packet(0, record(1, "APE")) + b"END")
        client.over()
        server.await_said("seedlinkd: close ")
        said = [re.sub(r" \d+ ", " N ", it) for it in server.said().splitlines() if re.match("seedlinkd: (open|reads|close) ", it)]
        self.assertEqual(said, [
            "seedlinkd: open N 127.0.0.1", "seedlinkd: reads N 127.0.0.1 GE APE FETCH", "seedlinkd: close N 127.0.0.1 bytes 531"])

    def test_at_most_64_stations_of_a_transfer_have_a_line(self):
        names = ["S%02d" % number for number in range(70)]
        server = self.serve('title = "Seventy stations"\nmax_connections = 10\n' + "".join(station("XX", it) for it in names))
        asked = lambda some: b"".join(b"STATION %b XX\rDATA\r" % it.encode() for it in some)
        client, another = self.keep(server.client()), self.keep(server.client())
        client.say(asked(names), OK * 140)
        client.send(b"END\r")
        server.await_said("more")
        another.say(asked(names[:64]), OK * 128)
        another.send(b"END\r")
        server.await_said("reads 1 ", 64)
        server.turns()
        told = ["reads %d 127.0.0.1 XX %s DATA" % (number, it) for number in (0, 1) for it in names[:64]]
        self.assertEqual(said_of(server, "reads"), told[:64] + ["reads 0 127.0.0.1 and 6 more"] + told[64:])
