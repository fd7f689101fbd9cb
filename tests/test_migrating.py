"""What tools/from_seedlink_ini.py makes of a server of SeisComP: made files of 4, 80 and 800 stations, and what can't be taken as it is."""

import re

import kit

TOOL = kit.TREE + "/tools/from_seedlink_ini.py"
HEAD = """* Global parameters of seedlink
[seedlink]
organization = "%(title)s"
network = "XX"
filebase = "/home/sysop/seiscomp/var/lib/seedlink/buffer"
port = 18000
trusted = "127.0.0.0/8"
%(access)ssegments = 50
segsize = 8192
connections = %(connections)d
connections_per_ip = 20

plugin chain0 cmd="/home/sysop/seiscomp/share/plugins/seedlink/chain_plugin -v -f /home/sysop/chain0.xml"
             timeout = 0
             start_retry = 60

"""
FOUR = HEAD % {"title": "Observatório de São João", "access": 'access = "10.0.0.0/8"\n', "connections": 500} + """
station GE.APE description = "Apirathos, Naxos"
               name = "APE"
               network = "GE"
               access = "192.0.2.0/24, partner.example.org 198.51.100.7"
station wlf    description = 'Walferdange "Mühle", a text of more than sixty bytes, which is too long here'
               name = "wlf"
               segments = 10
               proc = "generic_20"
station GE.DAV description = "Davos"
               name = "DAVOX"
               network = "CH"
               access = "partner.example.org"
               segments = 1000000
station GE.BAD description = "" name = "TOOLONG" network = "GE"
"""
LISTS = "CH DAVOX nobody\nGE APE 192.0.2.0/24 198.51.100.7\nXX WLF 10.0.0.0/8\n"
REMARKS = [
    "# title was: Observatório de São João",
    "# connections_per_ip = 20: it is the option --per-address",
    "# left out of access, since it is no address or network: partner.example.org",
    "# the codes were: XX wlf",
    '# description was: Walferdange "Mühle", a text of more than sixty bytes, which is too long here',
    "# capacity would be 16000000",
    "# proc = generic_20: records are served as they are fed; a program that makes them feeds them",
    "# left out, since its codes are none: station GE.BAD, GE TOOLONG",
]


def many(count):
    """A seedlink.ini of so many stations, each with a list of its own."""
    stations = (
        'station S%03d description = "Station %d"\n              name = "S%03d"\n              network = "%s"\n              access = "10.%d.%d.0/24"\n'
        % (it, it, it, "GE" if it % 3 else "CH", it // 256, it % 256)
        for it in range(count)
    )
    return HEAD % {"title": "A centre", "access": "", "connections": 20000} + "".join(stations)


class Migrating(kit.Test):
    def made_of(self, text, *words):
        """Makes a configuration of a file, and has the program look at it. Its text, and what the program lists."""
        kit.write("seedlink.ini", text)
        made = kit.ran(TOOL, *words, "seedlink.ini")
        self.assertEqual((made.returncode, made.stderr), (0, b""))
        config = made.stdout.decode()
        viewed = self.run_program("view", "--strict", kit.write("seedlinkd.toml", config))
        self.assertEqual(viewed.status, 0, viewed.all())
        return config, viewed.printed

    def test_four_stations(self):
        config, listed = self.made_of(FOUR)
        self.assertEqual("".join(sorted(listed.splitlines(True))), LISTS)
        for remark in REMARKS:
            self.assertIn(remark + "\n", config)
        self.assertIn('title = "Observatorio de Sao Joao"\nmax_connections = 500\n', config)
        self.assertEqual(re.findall(r"capacity = (\d+)", config), ["800", "160", "65536"])

    @kit.rows([("80 stations", 80), ("800 stations", 800)])
    def test_many_stations(self, count):
        config, listed = self.made_of(many(count))
        wanted = ["%s S%03d 10.%d.%d.0/24" % ("GE" if it % 3 else "CH", it, it // 256, it % 256) for it in range(count)]
        self.assertEqual(listed.splitlines(), wanted)
        self.assertIn("# max_connections would be 20000\nmax_connections = 10000\n", config)
        self.assertIn("# no access: everybody may use a station without a list of its own\n", config)

    def test_more_stations_than_a_server_has(self):
        config, listed = self.made_of(many(1030).replace("S10", "T10"))
        self.assertEqual(len(listed.splitlines()), 1024)
        self.assertEqual(config.count("# left out, since a server has at most 1024: station "), 6)

    def test_a_list_without_an_address_admits_nobody(self):
        """Not everybody, as one that is left out would."""
        _, listed = self.made_of('[seedlink]\nnetwork = "GE"\naccess = "a.example b.example 10.0.0.300"\nstation APE name = "APE"\n')
        self.assertEqual(listed, "GE APE nobody\n")

    def test_segments_of_records(self):
        config, _ = self.made_of('[seedlink]\nsegments = 50\nsegsize = 100\nstation GE.APE name = "APE" network = "GE"\n', "--segsize-in-records")
        self.assertIn("capacity = 5000\n", config)

    def test_a_text_of_the_file_ends_no_comment(self):
        config, _ = self.made_of('[seedlink]\nnetwork = "GE"\nproc = "a\rb\x0bc\u2028d"\nstation APE name = "APE" description = "a\\\\b"\n')
        self.assertIn("# proc = a?b?c?d: ", config)

    @kit.rows([
        ("no file", ["none.ini"], "none.ini: No such file or directory"),
        ("no station", ["empty.ini"], "there is no station in empty.ini"),
        ("no station that can be taken", ["bad.ini"], "no station of bad.ini can be taken"),
        ("no section", ["lone.ini"], "lone.ini: 'port = 18000' stands in no section"),
        ("no words", [], "usage: from_seedlink_ini.py [--segsize-in-records] FILE.. >seedlinkd.toml"),
    ])
    def test_a_fault(self, words, said):
        kit.write("empty.ini", "[seedlink]\n")
        kit.write("bad.ini", '[seedlink]\nstation LONGER name = "LONGER" network = "GE"\n')
        kit.write("lone.ini", "port = 18000\n")
        ended = kit.ran(TOOL, *words)
        self.assertEqual((ended.returncode, ended.stderr.decode()), (1, "from_seedlink_ini: %s\n" % said))
