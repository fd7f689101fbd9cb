"""What clients were sent and what they lost: how many packets of each station the log says, and how many records that were overwritten before
a client came to them the status port and the log say."""

import json
import re

import kit
from kit import GREETING, OK, record

# One record of GE APE is held, and 500 of GE WLF.
CONFIG = kit.CENTRE.replace("capacity = 100", "capacity = 1", 1).replace("capacity = 200", "capacity = 500", 1)
FED = 400


def told(server):
    """What the JSON of the status port tells."""
    asker = kit.Client(server.status)
    asker.send(b"GET /json HTTP/1.1\r\n\r\n")
    body = asker.rest().partition(b"\r\n\r\n")[2]
    asker.leave()
    return json.loads(body)


def lost_of(server):
    """How many records each client lost, by the number of its port."""
    return {it["number"]: it["lost"] for it in told(server)["clients"]}


def lost_in_all(server):
    """How many all clients lost, those who left too."""
    asker = kit.Client(server.status)
    asker.send(b"GET /metrics HTTP/1.1\r\n\r\n")
    text = asker.rest().decode()
    asker.leave()
    return int(re.search(r"^seedlinkd_client_lost_records_total (\d+)$", text, re.M).group(1))


def handed(client, last):
    """How many packets a client is handed up to that of this record, which is held."""
    count = 0
    while True:
        one = client.read(520)
        count += 1
        if one[8:] == last:
            return count
        assert len(one) == 520, "the connection ended after %d packets" % count


def closed(server):
    """What the log says of clients who are gone, in their order."""
    return re.findall(r"seedlinkd: close (\d+) 127\.0\.0\.1 bytes \d+(.*)$", server.said(), re.M)


def sent(server):
    """What the log says of packets that clients were sent."""
    return re.findall(r"^seedlinkd: sent (.*)$", server.said(), re.M)


@kit.unreleased
class Lost(kit.Test):
    def test_what_is_overwritten_is_lost(self):
        server = self.serve(CONFIG, status=True)
        client, other = self.keep(server.client()).follow("APE"), self.keep(server.client()).follow("WLF")
        records = [record(it, "APE") for it in range(FED)]
        server.feed(*records)
        lost = FED - handed(client, records[-1])
        self.assertGreater(lost, 0, "the server handed each record before the next one came")
        kit.until(lambda: lost_of(server) == {0: lost, 1: 0}, lambda: "%d lost: %r" % (lost, lost_of(server)))
        kit.until(lambda: lost_in_all(server) == lost, "the same in all")
        for gone in (client, other):
            gone.leave()
        server.await_said("seedlinkd: close ", 2)
        self.assertEqual(sorted(closed(server)), [("0", " lost %d" % lost), ("1", "")])
        # Who left still counts.
        kit.until(lambda: not told(server)["clients"], "nobody there")
        kit.until(lambda: lost_in_all(server) == lost, lambda: "%d lost in all, not %d" % (lost, lost_in_all(server)))

    def test_what_is_held_is_not_lost(self):
        server = self.serve(CONFIG, status=True)
        client = self.keep(server.client()).follow("WLF")
        records = [record(it) for it in range(FED)]
        server.feed(*records)
        self.assertEqual(handed(client, records[-1]), FED)
        self.assertEqual(lost_of(server), {0: 0})
        client.leave()
        server.await_said("seedlinkd: close ")
        self.assertEqual(closed(server), [("0", "")])

    @kit.rows([("from the next record on", b"DATA"), ("from the oldest record on", b"FETCH"), ("from a number", b"DATA 000001"),
               ("in a window", b"TIME 2024,02,29,00,00,00")])
    def test_what_was_overwritten_before_a_transfer_is_not_lost(self, how):
        server = self.serve(CONFIG, status=True)
        server.feed(*(record(it, "APE") for it in range(FED)))
        client = self.keep(server.client())
        client.say(b"HELLO\rSTATION APE GE\r" + how + b"\r", GREETING + OK * 2)
        client.send(b"END\r")
        kit.until(lambda: told(server)["stations"][0]["followers"] == 1 or ("1", "") in closed(server), "a transfer")
        server.turns()
        if ("1", "") not in closed(server):
            client.leave()
        server.await_said("seedlinkd: close 1")
        self.assertIn(("1", ""), closed(server))
        self.assertEqual(lost_in_all(server), 0)

    def test_clients_lose_apart(self):
        server = self.serve(CONFIG, status=True)
        first = self.keep(server.client()).follow("APE")
        records = [record(it, "APE") for it in range(2 * FED)]
        server.feed(*records[:FED])
        lost = FED - handed(first, records[FED - 1])
        second = self.keep(server.client()).follow("APE")
        server.feed(*records[FED:])
        both = {0: lost + FED - handed(first, records[-1]), 2: FED - handed(second, records[-1])}
        kit.until(lambda: lost_of(server) == both, lambda: "%r and not %r" % (both, lost_of(server)))
        kit.until(lambda: lost_in_all(server) == sum(both.values()), "the sum of both")

    def test_the_packets_of_each_station_are_counted(self):
        server = self.serve(kit.CENTRE)
        client = self.keep(server.client())
        client.say(b"STATION WLF GE\rDATA\rSTATION APE GE\rDATA\r", OK * 4)
        client.send(b"END\r")
        server.await_said("seedlinkd: reads 0", 2)
        records = [record(it, "APE" if it % 3 else "WLF") for it in range(60)]
        server.feed(*records)
        handed(client, records[-1])
        client.leave()
        server.await_said("seedlinkd: close ")
        self.assertEqual(sent(server), ["0 127.0.0.1 GE WLF packets 20", "0 127.0.0.1 GE APE packets 40"])

    def test_what_no_packet_was_sent_of_has_no_line(self):
        server = self.serve(kit.CENTRE)
        for said in (b"CAT\r", b"STATION WLF GE\rDATA\rEND\r"):
            client = self.keep(server.client())
            client.send(said)
            server.turns()
            client.leave()
        server.await_said("seedlinkd: close ", 4)
        self.assertEqual(sent(server), [])

    def test_a_transfer_of_one_station_is_counted(self):
        server = self.serve(kit.CENTRE)
        records = [record(it, "APE") for it in range(30)]
        server.feed(*records)
        client = self.keep(server.client())
        client.say(b"FETCH\r", b"")
        self.assertEqual(client.rest()[-3:], b"END")
        server.await_said("seedlinkd: close ")
        self.assertEqual(sent(server), ["1 127.0.0.1 GE APE packets 30"])

    def test_at_most_64_stations_have_a_line(self):
        stations = "".join('[[station]]\nnetwork = "XX"\ncode = "S%03d"\ndescription = ""\ncapacity = 4\n' % it for it in range(70))
        server = self.serve('title = "t"\n' + stations)
        client = self.keep(server.client())
        client.say(b"".join(b"STATION S%03d XX\rDATA\r" % it for it in range(70)), OK * 140)
        client.send(b"END\r")
        server.turns()
        records = [record(it, "S%03d" % it, network="XX") for it in range(70)]
        server.feed(*records)
        handed(client, records[-1])
        client.leave()
        server.await_said("seedlinkd: close ", 2)
        self.assertEqual(sent(server), ["0 127.0.0.1 XX S%03d packets 1" % it for it in range(64)] + ["0 127.0.0.1 and 6 more"])
