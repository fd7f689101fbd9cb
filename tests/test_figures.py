"""How long a processor works for what an operator waits for: `view` of a large configuration, and the start of a server."""

import resource

import kit

# How many seconds of a processor each may take.
VIEWS = [
    ("all stations", ("old.toml",), 0.1),
    ("what an address sees", ("old.toml", "10.7.0.1"), 0.1),
    ("who of a network sees what", ("old.toml", "10.0.0.0/8"), 0.1),
    ("what changes", ("old.toml", "new.toml"), 0.5),
]
START = 0.03


def grouped(partner):
    """800 stations, each with the lists of 8 of 40 groups of 5 networks; one of these networks is that."""
    groups = "".join('g%d = "%s"\n' % (it, " ".join("10.%d.%d.0/24" % (it, net) for net in range(5))) for it in range(40))
    stations = []
    for it in range(800):
        users = " ".join("@g%d" % ((it + step * 5) % 40) for step in range(8))
        text = '[[station]]\nnetwork = "XX"\ncode = "S%04d"\ndescription = "d"\ncapacity = 4\naccess = "%s"\n'
        stations.append(text % (it, users))
    return 'title = "t"\n[groups]\n' + groups.replace("10.7.3.0/24", partner) + "".join(stations)


class Figures(kit.Test):
    def view(self, *words):
        """What `view` prints, and how many seconds a processor worked for it: the least of three times."""
        took = []
        for _ in range(3):
            before = resource.getrusage(resource.RUSAGE_CHILDREN)
            ended = self.run_program("view", *words)
            after = resource.getrusage(resource.RUSAGE_CHILDREN)
            took.append(after.ru_utime + after.ru_stime - before.ru_utime - before.ru_stime)
            self.assertEqual(ended.status, 0, ended.said)
        return ended.printed, min(took)

    @kit.slow
    @kit.unreleased
    @kit.rows(VIEWS)
    def test_views_of_800_stations_and_40_groups(self, words, most):
        kit.write("old.toml", grouped("10.7.3.0/24"))
        kit.write("new.toml", grouped("192.0.2.0/24"))
        printed, took = self.view(*words)
        self.note("%d lines in %.3f s of a processor" % (printed.count("\n"), took))
        self.assertIn("g7" if "new.toml" in words else "XX S0007", printed)
        self.assertLess(took, most)

    @kit.slow
    def test_a_server_of_1024_stations_listens(self):
        stations = '[[station]]\nnetwork = "XX"\ncode = "S%04d"\ndescription = "d"\ncapacity = 1000\naccess = "10.0.0.0/8 127.0.0.1"\n'
        took = []
        for _ in range(3):
            server = self.serve('title = "t"\n' + "".join(stations % it for it in range(1024)))
            text = kit.text_of("/proc/%d/schedstat" % server.process.pid)
            if not text:
                self.skipTest("this system does not count the time of a process in nanoseconds")
            took.append(int(text.split()[0]) / 1e9)
            server.end()
        self.note("%.3f s of a processor" % min(took))
        self.assertLess(min(took), START)
