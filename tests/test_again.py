"""Records that come once more: of a server that is behind, of one that numbers anew, and to a reader whose state was changed."""

import collections
import os

import kit
from kit import record

CONFIG = 'title = "Tried"\n[[station]]\nnetwork = "GE"\ncode = "WLF"\ndescription = "tried"\ncapacity = 16384\n'
PATH = "2024/GE/WLF/BHZ.D/GE.WLF..BHZ.D.2024.060"
DAY = "archive/" + PATH
INTO = [("an archive", ["--archive", "archive"], DAY, PATH), ("one file", ["--output", "records"], "records", "-")]


@kit.unreleased
class Again(kit.Test):
    def server_of(self, count, config=CONFIG):
        server = self.serve(config)
        server.feed(*map(record, range(count)))
        return server

    def fetch(self, server, *words):
        ended = self.reader(server, *words, "--fetch", "--state", "state").await_end()
        self.assertEqual(ended.status, 0, ended.all())
        return ended

    def assert_once(self, path, count):
        """Each record stands there once, whatever their order."""
        found = collections.Counter(kit.identities_in(path))
        self.assertEqual([it for it in range(count) if it not in found][:9], [], "missing")
        self.assertEqual([it for it in found if found[it] > 1][:9], [], "doubled")
        self.assertEqual(len(found), count)

    def lines_of_stations(self):
        return [it for it in kit.text_of("state").split("#")[0].splitlines() if it]

    @kit.rows([
        ("patterns that add up", ["GE_WLF:BH?", "GE_WLF:LH?"], ""),
        ("the same twice", ["GE_WLF", "GE_WLF"], ""),
        ("a line twice", ["--wants", "wants"], "GE_WLF\nGE_WLF\n"),
    ])
    def test_several_wants_of_a_station(self, wants, lines):
        kit.write("wants", lines)
        server = self.server_of(3)
        for count in (3, 4):
            self.fetch(server, *wants, "--archive", "archive")
            self.assert_once(DAY, count)
            self.assertEqual(len(self.lines_of_stations()), 1, kit.text_of("state"))
            server.feed(record(count))

    def test_a_state_with_several_lines_of_a_station(self):
        """An earlier version wrote such ones."""
        kit.write("state", "GE WLF 000003 -\nXX OTHER 0000AA 17\nGE WLF 000001 -\n")
        ended = self.fetch(self.server_of(5), "GE_WLF", "--archive", "archive")
        self.assertEqual(ended.said, "seedlinkd: several lines of one station in state, of which the lowest number counts\n")
        self.assertEqual(kit.identities_in(DAY), [2, 3, 4])
        self.assertEqual([it[:13] for it in self.lines_of_stations()], ["GE WLF 000004", "XX OTHER 0000"])

    @kit.rows(INTO)
    def test_a_server_that_is_behind(self, into, path, _):
        self.fetch(self.server_of(100), "GE_WLF", *into)
        behind = self.server_of(97)
        self.fetch(behind, "GE_WLF", *into)
        self.assert_once(path, 100)
        behind.feed(*map(record, range(97, 105)))
        self.fetch(behind, "GE_WLF", *into)
        self.assert_once(path, 105)

    def test_a_hole_is_filled_by_the_recipe(self):
        """That of OPERATING, from a server that has more than the hole at both ends."""
        seconds = [record(it, start=(2024, 60, 0, it // 60, it % 60, 0)) for it in range(200)]
        server = self.serve(CONFIG)
        server.feed(*seconds[:100], *seconds[150:])
        self.fetch(server, "GE_WLF", "--archive", "archive")
        gaps = ["check", "archive", "--quiet", "--gaps"]
        self.assertEqual(self.run_program(*gaps).printed, "gap GE WLF -- BHZ D 17091649000000 17091649500000 500000\n")
        second = self.serve(CONFIG)
        second.feed(*seconds[90:160])
        recipe = [it for it in kit.text_of(kit.TREE + "/docs/OPERATING.md").splitlines() if it.endswith("--state hole.state")]
        self.assertEqual(len(recipe), 1, recipe)
        exchanged = {"GE_APE": "GE_WLF", "/archive": "archive", "127.0.0.1:18010": second.address}
        ended = self.run_program(*(exchanged.get(it, it) for it in recipe[0].split()[1:]))
        self.assertEqual(ended.status, 0, ended.all())
        self.assert_once(DAY, 200)
        self.assertEqual(self.run_program(*gaps).all(), "status 0")

    @kit.rows(INTO)
    def test_a_server_that_numbers_anew(self, into, path, _):
        server = self.server_of(10)
        self.fetch(server, "GE_WLF", *into)
        server.end()
        server = self.keep(server.again())
        server.feed(*map(record, range(5, 13)))
        self.fetch(server, "GE_WLF", *into)
        self.assert_once(path, 13)

    @kit.rows(INTO)
    def test_a_planned_restart(self, into, path, _):
        """`examples/restart` feeds a new server what the old one held, under other numbers. The reader follows all the time."""
        server = self.serve(CONFIG.replace("16384", "40"), "--numbers", "numbers")
        self.reader(server, "GE_WLF@0", "--retry", "1", "--state", "state", *into)
        for first, end in ((0, 20), (20, 50)):
            server.feed(*map(record, range(first, end)))
            kit.until(lambda: os.path.exists(path) and kit.identities_in(path) == list(range(end)), "%d records" % end)
        kit.restart_by_script(self, server, server.process.pid, "held", "--numbers", "numbers")
        kit.write("more", b"".join(map(record, range(50, 60))))
        self.assertEqual(self.run_program("feed", server.feed_address, "more").status, 0)
        kit.until(lambda: set(range(60)) <= set(kit.identities_in(path)), "60 records")
        self.assert_once(path, 60)

    @kit.rows(INTO)
    def test_a_server_whose_numbers_are_ahead(self, into, path, _):
        self.fetch(self.server_of(10), "GE_WLF", *into)
        self.fetch(self.server_of(15, CONFIG + 'first = "1388"\n'), "GE_WLF", *into)
        self.assert_once(path, 15)

    def test_what_stands_in_one_file_before_is_left_as_it_is(self):
        kit.write("records", b"".join(map(record, range(5))))
        self.fetch(self.server_of(10), "GE_WLF", "--output", "records")
        self.assertEqual(kit.identities_in("records"), list(range(5)) + list(range(10)))

    @kit.rows(INTO)
    def test_two_lines_of_one_file(self, into, path, name):
        """One of them would count, and the other would be passed over without a word."""
        os.makedirs(os.path.dirname(path) or ".", exist_ok=True)
        kit.write(path, b"".join(map(record, range(15))))
        text = kit.text_of(kit.write("state", "GE WLF 000009 -\n#\n%s 15\n%s 10\n" % (name, name)))
        ended = self.reader(self.server_of(20), "GE_WLF", *into, "--fetch", "--state", "state").await_end()
        self.assertEqual((ended.status, ended.said, kit.text_of("state")), (1, "seedlinkd: 53 State\n", text))
        self.assertEqual(kit.identities_in(path), list(range(15)))

    @kit.rows(INTO)
    def test_a_file_that_is_shorter_than_the_state_counts(self, into, path, name):
        os.makedirs(os.path.dirname(path) or ".", exist_ok=True)
        kit.write(path, b"".join(map(record, range(15))))
        kit.write("state", "GE WLF 000009 -\n#\n%s 20\n" % name)
        ended = self.fetch(self.server_of(20), "GE_WLF", *into)
        self.assert_once(path, 20)
        self.assertEqual(ended.said, "seedlinkd: 15 records, where 20 were counted, in %s\n" % path)

    @kit.rows([INTO[0] + ("",), INTO[1] + ("#\n- 0\n",)])
    def test_a_hole_is_filled(self, into, path, _, lengths):
        """The number of the state is lowered, and its lines of files are removed, or the one has no record."""
        os.makedirs(os.path.dirname(path) or ".", exist_ok=True)
        kit.write(path, b"".join(record(it) for it in range(16000) if not 4000 <= it < 4100))
        kit.write("state", "GE WLF 000F9F -\n" + lengths)
        self.fetch(self.server_of(16000), "GE_WLF", *into)
        self.assert_once(path, 16000)

    def test_a_return_of_one_station(self):
        """The files of the others are not looked through: the state goes on counting their records."""
        both = CONFIG + CONFIG.partition("\n")[2].replace("WLF", "APE")
        server = self.serve(both)
        server.feed(*map(record, range(10)), *(record(it, "APE") for it in range(5)))
        self.fetch(server, "GE_WLF", "GE_APE", "--archive", "archive")
        other = "%s 5\n" % PATH.replace("WLF", "APE")
        self.assertIn(other, kit.text_of("state"))
        server.end()
        server = self.keep(server.again())
        server.feed(*map(record, range(5, 13)))
        self.fetch(server, "GE_WLF", "GE_APE", "--archive", "archive")
        self.assert_once(DAY, 13)
        self.assertIn(other, kit.text_of("state"))

    def test_a_station_whose_jumps_are_not_seen(self):
        """One that is asked for by patterns returns with another one."""
        both = CONFIG + CONFIG.partition("\n")[2].replace("WLF", "APE")
        wants = ["GE_WLF", "GE_APE:BHZ", "--archive", "archive"]
        fed = [record(it) for it in range(10)] + [record(it, "APE") for it in range(10)]
        server = self.serve(both)
        server.feed(*fed)
        self.fetch(server, *wants)
        ahead = self.serve(both.replace("16384", '16384\nfirst = "1388"'))
        ahead.feed(*fed, record(10), record(10, "APE"))
        self.fetch(ahead, *wants)
        self.assert_once(DAY, 11)
        self.assert_once(DAY.replace("WLF", "APE"), 11)

    @kit.slow
    @kit.limit(240)
    @kit.rows([("%s, %d" % (it[0], count),) + it[1:] + (count,) for it in INTO for count in (65535, 65536)])
    def test_what_never_comes_again(self, into, path, name, count):
        """A ring holds 65,536 records: once as many were added, a state counts what was there before."""
        self.fetch(self.server_of(10), "GE_WLF", *into)
        server = self.serve(CONFIG.replace("16384", "65536") + 'first = "1388"\n')
        server.feed(*map(record, range(10, 10 + count)))
        ended = self.reader(server, "GE_WLF", "--quiet", *into, "--fetch", "--state", "state").await_end(180)
        self.assertEqual(ended.status, 0, ended.all())
        self.assertIn("%s %d\n" % (name, 10 + count if count == 65536 else 0), kit.text_of("state"))
        self.assertEqual(os.path.getsize(path), 512 * (10 + count))
