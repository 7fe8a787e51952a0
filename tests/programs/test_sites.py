"""Tests of tables of sites and of real channel numbers: of `forestlab network read --sites`, `--reach`, `--bars` and
`--channels`, and of `forestlab channels`."""
import itertools
import math
import random
import re

from forestplan.faults import Fault
from forestplan.limits import MAX_NODES
from forestplan.networks import tables
from forestplan.networks.forms import Stated
from forestplan.networks.network_text import network_in_bytes
from tests.cases import Case, called, example, said_by
from tests.programs.test_own_networks import call, edges_of
from tests.settings import PLAN
from tests.tools import needs


def on_ground(one, other):
    """Kilometres between two places of latitude and longitude, by the law of haversines."""
    (a, b), (c, d) = (tuple(map(math.radians, place)) for place in (one, other))
    half = math.sin((c - a) / 2) ** 2 + math.cos(a) * math.cos(c) * math.sin((d - b) / 2) ** 2
    return 2 * 6371.0088 * math.asin(math.sqrt(half))


SITES = "site,lat,lon\nUlm,48.4,10\nAue,48.41,10\nHof,,\n"
# Tables of sites and of bars, and what is said of the first fault.
TABLES = (
    ("site\nUlm\nUlm\n", "", "line 3: a second site Ulm"),
    ("name,id\na,b\n", "", "line 1: name and id may each be the column site"),
    ("site,lat\nUlm,1\n", "", "no site has a place, so --reach joins none"),
    ("site,lat,lon\nUlm,100.5,48\n", "", "line 2: no latitude and longitude in degrees"),
    ("site,lat,lon\nUlm,48.1,\n", "", "line 2: no number"),
    ('site,x_m,y_m\nUlm,"1,234",0\n', "", "line 2: no number, or one with thousands"),
    ("site;x_m;y_m\nUlm;1.234,5;0\n", "", "line 2: no number, or one with thousands"),
    ("site,identifier\nUlm,%d\n" % 2**128, "", "line 2: no identifier below 2^128"),
    ("site,identifier\nUlm,7\nAue,07\n", "", "line 3: a second site of the identifier 7"),
    (SITES, "site,channel\nHoff,1\n", "line 2: Hoff is no site, is it Hof?"),
    (SITES, "site,channel\nHof,2049\n", "line 2: no channel from 1 to 2048"),
    (SITES, "site,channel\nHof,6.0\n", "line 2: no channel: `6.0`"),
)


class Sites(Case):
    def read(self, pairs, sites, arguments):
        """What `network read` makes of a table of sites."""
        return call(
            "read",
            *([self.file("pairs.csv", pairs)] if pairs else []),
            "--sites",
            self.file("sites", sites),
            *arguments.split(),
        )

    def test_refused(self):
        for arguments in (
            "--reach 5",
            "",
            "--sites s",
            "--sites s --reach 0",
            "--sites s --reach 1e-320",
            "--sites s --reach 20001",
            "--channels x s",
            "- --sites -",
            "- --channels 6,6",
        ):
            self.refusal(
                f"refused words: {arguments}", call("read", *arguments.split()), 2, b"error: "
            )

    def test_sites(self):
        """Sites in their order, those of a reach joined, with bars that a licence counts."""
        bars = self.file("bars.csv", "site,channel\nHof,6\nHof,7\n")
        sites = self.file("sites.csv", SITES)
        arguments = ("--sites", sites, "--reach", 3, "--bars", bars, "--channels", "1 6 11")
        status, text, said = call("read", *arguments)
        net = network_in_bytes(text)
        self.same(
            "a network of sites",
            (status, net.names, net.edges, net.bars),
            (0, {1: "Ulm", 2: "Aue", 3: "Hof"}, [(1, 2)], {3: [2]}),
        )
        comments = [re.findall(rb"[0-9]+", line) for line in text.split(b"\n") if line[:2] == b"c "]
        for pair in ([b"1", b"1"], [b"2", b"6"], [b"3", b"11"]):
            self.note(
                f"which number of the licence channel {pair[0]!r} is", pair in comments, comments
            )
        self.same(
            "what is said",
            [line.partition(f"{sites}: ")[2] for line in said.decode().split("\n")[1:-1]],
            [
                "places are by lat and lon, and 1.11 km across",
                "1 pair of sites less than 3 km apart, and 1 site without a place",
                f"1 bar of {bars} of a channel outside the licence",
            ],
        )
        self.note("north is on top", net.places[2][1] < net.places[1][1], net.places)
        for unit, far in (("km", "2,0"), ("m", "2000")):
            table = f"site;x_{unit};y_{unit}\nA;0,5;0\nB;{far};0\nC;9000;0\n"
            self.same(
                f"places in {unit}", edges_of(self.read(None, table, "--reach 3")[1]), {(1, 2)}
            )

    def test_far_on_the_globe(self):
        """Along the equator, where a degree is 111.2 km; no two places are more than half of it apart."""
        table = "site,lat,lon\nA,0,0\nB,0,90\nC,0,179\n"
        for reach, wanted in (
            (15_000, {(1, 2), (2, 3)}),
            (19_950, {(1, 2), (2, 3), (1, 3)}),
            (20_000, {(1, 2), (2, 3), (1, 3)}),
        ):
            text = self.read(None, table, f"--reach {reach}")[1]
            self.same(f"less than {reach} km apart", edges_of(text), wanted)
        farther = self.read(None, table, "--reach 20001")
        self.refusal("farther", farther, 2, b"to 20,000 km")

    def test_the_last_degrees(self):
        """Latitudes up to the poles, and longitudes from 180 in the west up to 360 in the east."""
        for place, status in (
            *(("90,0", 0), ("-90,0", 0), ("90.1,0", 1), ("-90.1,0", 1)),
            *(("0,-180", 0), ("0,360", 0), ("0,-180.1", 1), ("0,360.1", 1)),
        ):
            done = self.read(None, f"site,lat,lon\nUlm,{place}\nAue,48,10\n", "--reach 3")
            self.same(place, done[0], status)

    def test_columns(self):
        """A title that is stated is looked for in each table, and has to be in one."""
        sites = self.file("sites.csv", "Ort;x_km;y_km\nUlm;0;0\nAue;1;0\n")
        arguments = (
            "--sites",
            sites,
            "--reach",
            3,
            "--bars",
            self.file("bars.csv", "site,channel\nUlm,6\n"),
        )
        done = call("read", *arguments, "--columns", "site=Ort")
        self.same("a title of one table", (done[0], b"\nb 1 6\n" in done[1]), (0, True))
        done = call("read", *arguments, "--columns", "site=Ort,channel=Kanal")
        self.refusal("of none", done, 1, b"no table here has Kanal as its column channel")
        for title in ("O\nrt", 'O"r\nt'):
            done = call("read", *arguments, "--columns", f"site={title}")
            self.refusal(f"a title {title!r}", done, 2, b"error: argument --columns: ")
            self.same(f"a title {title!r}, lines", done[2].count(b"\n"), 2)
        done = call("read", "path3", "--no-heading")
        self.refusal("no table", done, 1, b"--no-heading: no table is read here")

    def test_the_most_sites(self):
        """As many as a network has nodes are read, and the first one above is refused by its line."""
        sites = [f"s{number}" for number in range(1, MAX_NODES + 2)]
        with self.assertRaisesRegex(Fault, f"t line {MAX_NODES + 2}: more than {MAX_NODES} sites"):
            tables.SiteTable("t", Stated()).read("\n".join(["site", *sites]))
        found = tables.SiteTable("t", Stated()).read("\n".join(["site", *sites[:-1]]))
        self.assertEqual(list(found.lines), sites[:-1])

    def test_known_sites(self):
        """Each node of a file has to be a site, whatever form the file has."""
        for name, data, said in (
            ("a.csv", "source,target\nHof,Ulm\nUlm,Hoff\n", "line 3: Hoff isn't a site"),
            ("a.edgelist", "Hof Ulm\nUlm Hoff\n", "line 2: Hoff isn't a site"),
            ("a.adjlist", "Hof\nHoff\n", "Hoff isn't a site"),
            ("a.col", "c name 1 Hof\nc name 2 Hoff\np edge 2 0\n", "Hoff isn't a site"),
        ):
            arguments = (self.file(name, data), "--sites", self.file("sites.csv", SITES))
            done = call("read", *arguments)
            self.refusal(name, done, 1, said.encode())
            self.note(f"{name}: the nearest is said", b"is it Hof?" in done[2], done)

    def test_tables(self):
        """Tables that aren't as they have to be are refused with their line."""
        for sites, bars, said in TABLES:
            more = f"--reach 3 --bars {self.file('bars.csv', bars)}" if bars else "--reach 3"
            done = self.read(None, sites, more)
            self.refusal(f"{sites!r} {bars!r}", done, 1, said.encode())

    def test_reach(self):
        """Places by chance: two are joined just if they are less than the reach apart on the ground; near the poles and
        over the line where the longitudes meet, too. (Of a plane test_disk of test_own_networks.py does the same.)
        """
        source = random.Random(7)
        for name, reach, one, other in (
            ("a town", 4, (52.3, 52.6), (13.1, 13.7)),
            ("a pole", 60, (88, 90), (-180, 180)),
            ("the line", 30, (-1, 1), (179, 181)),
            ("the earth", 1500, (-90, 90), (-180, 180)),
        ):
            places = [(source.uniform(*one), source.uniform(*other)) for _ in range(120)]
            rows = [f"s{at},{a!r},{b!r}\n" for at, (a, b) in enumerate(places, 1)]
            sites = f"id,lat,lon\n{''.join(rows)}"
            near = {
                (v, w)
                for (v, here), (w, there) in itertools.combinations(enumerate(places, 1), 2)
                if on_ground(here, there) < reach
            }
            self.note(f"near each other: {name}", 20 < len(near) < 5000, len(near))
            found = edges_of(self.read(None, sites, f"--reach {reach}")[1])
            self.same(f"edges of {name}", found, near)
        found = edges_of(self.read("from,to\ns1,s2\n", sites, "--reach 1500")[1])
        self.same("and pairs besides", found, near | {(1, 2)})


class Channels(Case):
    def call(self, *arguments, data=""):
        return said_by("channels", *arguments, data=data.encode())

    @needs("forestplan")
    def test_both_ways(self):
        plan, real = "plan\n1 2\n2 3\n3 1\n", "plan\n1 6\n2 11\n3 1\n"
        for table in (["1", "6", "11"], ["1,6,11"], ["1-11/5"], ["1-1", "6 11"]):
            self.same(f"to {table}", self.call(*table, data=plan), (0, real, ""))
            self.same(f"from {table}", self.call("--back", *table, data=real), (0, plan, ""))
        got = self.call("--back", data="plan\n1 40\n2 36\n3 44\n")
        self.same(
            "without a table", got, (0, "plan\n1 2\n2 1\n3 3\n", "channels: 1 to 3 are 36 40 44\n")
        )
        done = called(PLAN, "check", data=example("triangle") + got[1].encode())
        self.same("a real plan is judged", done, (0, b"proper 3\n", b""))

    def test_runs(self):
        """The channels of a run, as a plan."""
        run = "node 1 pulse 30 channel 2\nnode 2 pulse 30 channel 3\nnode 3 pulse 30 channel 1\n"
        for arguments, wanted in (
            (["--run"], "plan\n1 2\n2 3\n3 1\n"),
            (["--run", "1-11/5"], "plan\n1 6\n2 11\n3 1\n"),
        ):
            self.same(f"{arguments}", self.call(*arguments, data=run), (0, wanted, ""))
        self.same("a run of no nodes", self.call("--run"), (0, "plan\n", ""))

    def test_files(self):
        """The licence as a table; test_reading.py has what else a table may be."""
        for table, arguments, unread in (
            ("Bemerkung;channel\r\ngut;36\r\ngut;40\r\n;;\r\n", (), "Bemerkung"),
            ("Kanal,MHz\n36,1\n40,2\n", ("--columns", "channel=kanal"), "MHz"),
            ("36,x\n40,y\n", ("--no-heading",), "column 2"),
        ):
            path = self.file("my licence.csv", table)
            said = f"channels: {path}: columns that aren't read: {unread}\n"
            got = self.call(*arguments, path, data="plan\n1 2\n2 1\n")
            self.same(f"{table!r} {arguments}", got, (0, "plan\n1 40\n2 36\n", said))
        for table, arguments, said in (
            ("Frequency\n5180\n", (), "line 1: no heading with channel"),
            ("channel,power\n36,1\nforty,1\n", (), "line 3: no channel: `forty`"),
            ("channel,power\n36,1\n36,2\n", (), "names a channel twice"),
            ("channel\n36\n", ("--no-heading",), "line 1: it is a heading"),
        ):
            got = self.call(*arguments, self.file("licence.csv", table), data="plan\n1 2\n2 1\n")
            self.refusal(f"{table!r} {arguments}", got, 1, said)

    def test_refused(self):
        for arguments, data, said in (
            (
                ["1", "6"],
                "plan\n1 2\n2 3\n",
                "line 3: channel 3, and the table has 2: it takes 3 channels",
            ),
            (["1", "6"], "plan\n1 0\n", "line 2: channel 0"),
            (["--back", "1", "6"], "plan\n1 6\n2 7\n", "line 3: channel 7 isn't one of the table"),
            (["1"], "1 1\n", "line 1: no line `plan`"),
            (["1"], "plan\n1 x\n", "line 2: no node and its channel: `1 x`"),
            (
                ["--run"],
                "node 1 pulse 3 leader 2\n",
                "line 1: no node with a channel: `node 1 pulse 3 leader 2`",
            ),
            (
                ["--run", "1"],
                "node 1 pulse 30 channel 2\n",
                "line 1: channel 2, and the table has 1",
            ),
        ):
            got = self.call(*arguments, data=data)
            self.note(
                f"{arguments} {data!r}",
                got[:2] == (1, "") and said in got[2] and got[2].count("\n") == 1,
                got,
            )
        for line in ("", "x", "1 1", "5-1", "36-63/4", "1-3000", "--run --back"):
            self.refusal(
                f"refused words: {line}",
                self.call(*line.split(), data="plan\n"),
                2,
                "channels: error: ",
            )

    def test_names(self):
        """Real numbers on a plan with names, and what is no plan of the network."""
        pairs = b'source,target\nUlm,"Aue, west"\n'
        path = self.file("net.col", call("read", "-", "--as", "pairs", data=pairs)[1])
        real = self.call("36", "40", data="plan\n1 2\n2 1\n")[1].encode()
        got = call("names", path, data=real)
        self.same("names with real channels", got, (0, b"Ulm 40\nAue, west 36\n", b""))
        other = b"isn't of this network"
        for data, said in (
            (b"", b"no line `plan` (C6)"),
            (b"plan\n1 1\n", other),
            (b"plan\n2 1\n1 2\n", other),
            (b"plan\n1 1\n2 2\n3 3\n", other),
        ):
            self.refusal(f"{data!r}", call("names", path, data=data), 1, said)
