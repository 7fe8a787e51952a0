"""The one table of what reads a text that a user gives: tests/by_hand/fuzz.py and growth.py, and the
tests that run a little of both, read it from here.

A reader is a command of forestlab, called in this process, or a function that reads what no command names."""
import contextlib
import functools
import gc
import io
import os
import sys
import unittest.mock
from collections.abc import Callable, Iterator
from dataclasses import dataclass

from forestplan.definitions.own_program import compiled_file
from forestplan.faults import Fault
from forestplan.networks import channels, network
from forestplan.pictures import picture
from forestplan.schedules import simulate
from forestplan.studio.fields import object_of
from forestplan.studio.networks import opened_by
from forestplan.studio.session import Session
from forestplan.transcripts import transcript
from forestplan.workshop.findings import NoAnswer
from forestplan.workshop.protocol import END, answer_fields, forms_of, lines_of
from forestplan.workshop.submissions import said_command
from tests import TOP

Main = Callable[[list[str]], int]
# The modules of commands.
WITH_PARSERS = (network, channels, picture, simulate, transcript)
# In the words of a command: the file with the text, and one with the text that stands beside it.
FILE, BESIDE = "{file}", "{beside}"
PAIRS = b"source,target\na,b\nb,c\n"
SITES = b"site,lat,lon,identifier\na,48.1,11.5,7\nb,48.2,11.6,\nc,48.3,11.7,9\n"
PLAN = b"plan\n1 1\n2 2\n"
TWO = b"p edge 2 1\ne 1 2\n"
NETWORK = b"c a\np edge 3 2\nc at 1 0.5 2\nc name 2 Ulm\ni 2 7\nb 3 1\ne 1 2\ne 2 3\n"
RUN = b"node 1 pulse 12 channel 1\nnode 2 pulse 12 channel 2\n"
ALONE = b"".join(b"%d %d pulse %d\n" % (p, v, p) for p in range(1, 13) for v in (1, 2))
ENTRIES = (
    b"transcript 2 2\n1 1 put 2 payload 0 hello 1\n1 2 put 1 payload 0 hello 2\n"
    b"2 1 take 2 payload 0 hello 2\n3 1 put 2 ack 0\n4 2 take 1 payload 0 hello 1\n5 2 pulse 1\n"
)
# A program of nodes that react to messages, and a run of it; and one that is a run of the synchroniser, too.
ECHO = os.path.join(TOP, "examples", "algorithms", "echo.py")
OF_ECHO = (
    b"transcript 4 echo 2\n1 1 put 2 wave\n2 2 take 1 wave\n3 2 put 1 echo 1\n4 1 take 2 echo 1\n"
)
OF_ALPHA = (
    b"transcript 4 alpha 2\n1 1 put 2 payload 0 leader 1\n2 2 take 1 payload 0 leader 1\n"
    b"3 2 put 1 ack 0\n4 1 take 2 ack 0\n5 1 put 2 safe 0\n6 1 act 1\n7 1 put 2 close\n"
)
GRAPHML = (
    b"<?xml version='1.0' encoding='utf-8'?><graphml xmlns='http://graphml.graphdrawing.org/xmlns'>"
    b"<key id='d' for='node' attr.name='label' attr.type='string'/><graph edgedefault='undirected'>"
    b"<node id='a'><data key='d'>Ulm</data></node>\n<node id='b'/><edge source='a' target='b'/>"
    b"</graph></graphml>"
)
GEXF = (
    b"<gexf xmlns='http://gexf.net/1.3' version='1.3'><graph defaultedgetype='undirected'><nodes>"
    b"<node id='0' label='Ulm'/>\n<node id='1' label='Aue'/></nodes><edges>"
    b"<edge id='0' source='0' target='1'/></edges></graph></gexf>"
)
GML = (
    b'Creator "me"\ngraph [ directed 1 # [\n node [ id 7 label "Ulm" graphics [ x 1.5 y 2 ] ]\n'
    b' node [ id 8 label "Aue" ] edge [ source 7 target 8 weight 2 ] ]\n'
)
JSON = b'{"nodes": [{"id": "Ulm", "x": 1}, {"id": 2}],\n "links": [{"source": "Ulm", "target": 2}]}'
PROGRAM = (
    b"def greet(me):\n    return ('x', 1)\n\ndef step(me, pulse, inbox):\n    return None\n\n"
    b"def result(me):\n    return 'done'\n"
)


@dataclass(frozen=True)
class Reader:
    """What reads a text: the command's words, of which one may be FILE, whose ending is `ending`; else the text is on
    standard input, where otherwise `given` is. `good` are texts that it reads, and `words` are pieces of such texts.
    """

    name: str
    main: Main
    arguments: tuple[str, ...]
    good: tuple[bytes, ...]
    pieces: tuple[bytes, ...] = ()
    # A comment, and what begins a list in a list, each with what comes before all of them.
    comment: tuple[bytes, bytes] = (b"", b"# x\n")
    nested: tuple[bytes, bytes] = (b"", b"[")
    ending: str = ".txt"
    given: bytes = b""
    beside: bytes = b""
    needs: str = ""

    def status(self, data: bytes, folder: str) -> int:
        """The status with which it ends on a text. What would end a command with status 70 is raised."""
        file = os.path.join(folder, f"text{self.ending}")
        beside = os.path.join(folder, "beside.csv")
        for path, text in ((file, data), (beside, self.beside)):
            with open(path, "wb") as to:
                to.write(text)
        arguments = [{FILE: file, BESIDE: beside}.get(word, word) for word in self.arguments]
        stdin = self.given if FILE in self.arguments else data
        with streams(stdin), garbage_collected():
            try:
                return self.main(arguments)
            except SystemExit as ended:
                return int(ended.code or 0)
            except (Fault, OSError):
                return 1


@contextlib.contextmanager
def streams(stdin: bytes) -> Iterator[None]:
    """Standard input is a text, and what is printed goes nowhere."""
    given, out, errors = (
        io.TextIOWrapper(io.BytesIO(text), "utf-8", write_through=True)
        for text in (stdin, b"", b"")
    )
    with (
        unittest.mock.patch.object(sys, "stdin", given),
        contextlib.redirect_stdout(out),
        contextlib.redirect_stderr(errors),
    ):
        yield


@contextlib.contextmanager
def garbage_collected() -> Iterator[None]:
    """A command that collects no garbage, since it ends soon, keeps this process from doing so only until its end."""
    try:
        yield
    finally:
        gc.enable()


@contextlib.contextmanager
def parsers_kept() -> Iterator[None]:
    """The parser of a command line is made once: that takes longer than to read a short text."""
    with contextlib.ExitStack() as stack:
        for module in WITH_PARSERS:
            kept = functools.cache(module.command_line)
            stack.enter_context(unittest.mock.patch.object(module, "command_line", kept))
        yield


# What no command names, as such a function.


def program(arguments: list[str]) -> int:
    """A program of one's own, up to its first line."""
    compiled_file(arguments[0])
    return 0


def commands(arguments: list[str]) -> int:
    """The file `commands` of a submission."""
    os.replace(arguments[0], os.path.join(os.path.dirname(arguments[0]), "commands"))
    said_command(os.path.dirname(arguments[0]), "rounds")
    return 0


def answer(arguments: list[str]) -> int:
    """An answer of a student's node."""
    got = sys.stdin.buffer.read()
    try:
        end = END.search(got)
        for line in lines_of(got[: end.start()] if end else got):
            answer_fields(line, forms_of(arguments[0], "colouring"), 2)
    except NoAnswer:
        return 1
    return 0


def call(_words: list[str]) -> int:
    """What the studio's page asks."""
    object_of(sys.stdin.buffer.read())
    return 0


def address(_words: list[str]) -> int:
    """What is after the # of a link."""
    opened_by(sys.stdin.buffer.read().decode("utf-8", "replace"), Session()).address.refuse()
    return 0


def words_of(main: Main) -> Main:
    """The same command with the text of its standard input as a word in the place of `{text}`."""

    def with_words(arguments: list[str]) -> int:
        text = os.fsdecode(sys.stdin.buffer.read().replace(b"\0", b""))
        return main([text if word == "{text}" else word for word in arguments])

    return with_words


def with_encoding(arguments: list[str]) -> int:
    """A table in the encoding that its first line names."""
    with open(arguments[1], "rb") as file:
        first, _, rest = file.read().partition(b"\n")
    with open(arguments[1], "wb") as file:
        file.write(rest)
    return network.main([*arguments, "--encoding", os.fsdecode(first.replace(b"\0", b""))])


def read_as(form: str, good: tuple[bytes, ...], pieces: bytes, **more) -> Reader:
    arguments = ("read", FILE, "--as", form)
    needs = "" if form in ("dimacs", "pairs", "edges", "adjacency") else "networkx"
    return Reader(form, network.main, arguments, good, tuple(pieces.split()), needs=needs, **more)


ENCODINGS = (
    b"utf-8 utf-8-sig utf-16 utf-16-le utf-32 utf-7 cp1252 latin-1 ascii cp037 shift_jis gb18030 hz big5hkscs"
    b" iso2022_jp idna punycode unicode_escape raw_unicode_escape undefined rot13 zlib hex base64 mbcs"
).split()
OF_TRANSCRIPTS = tuple(
    b"transcript 1 2 3 leader pulse put take payload ack safe close hello label hops 0 1 12".split()
)
OF_REACTIONS = OF_TRANSCRIPTS + tuple(b"act wave echo alpha 4".split())
OF_XML = (
    b"<node <edge <graph <data <key id='a' source='a' target='b' /> > </node> </graph> <!-- --> &lt; &a;"
    b" <![CDATA[ ]]>"
)


def read_as_xml(form: str, data: bytes) -> Reader:
    shapes = (b"<graphml>", b"<!-- x -->"), (b"<graphml>", b"<a>")
    return read_as(form, (data,), OF_XML, comment=shapes[0], nested=shapes[1])


READERS = (
    Reader(
        "network",
        network.main,
        ("tell", "-"),
        (NETWORK, TWO),
        tuple(b"c p e i b edge at name".split()),
        comment=(b"", b"c x\n"),
    ),
    read_as("dimacs", (NETWORK, TWO), b"c p e i b edge at name 1 2 3", comment=(b"", b"c x\n")),
    read_as("pairs", (PAIRS, b'from;to\n"a";b\n'), b"source target from to , ; a b"),
    read_as("edges", (b"# x\na b\nb c\n", b"a b {'w': 1}\nb c {}\n"), b"# a b { } 1.5 1e5 : ,"),
    read_as("adjacency", (b"#x\na b c\nb\nc\n", b"a: b\nb:\n"), b"# a b : ,"),
    read_as_xml("graphml", GRAPHML),
    read_as_xml("gexf", GEXF),
    read_as(
        "gml",
        (GML,),
        b'graph node edge id label source target [ ] " # 7 8 1.5 key',
        nested=(b"graph [ ", b"a [ "),
    ),
    read_as(
        "json", (JSON,), b'{ } [ ] " : , "nodes" "links" "edges" "id" "source" "target" 1 -1 1e9'
    ),
    read_as("graph6", (b"A_\n", b">>graph6<<D~{\n"), b"~ ? _ >>graph6<< ~?@?"),
    read_as("sparse6", (b":An\n", b">>sparse6<<:Fa@x^\n"), b"~ : ? _ >>sparse6<< :~?@?"),
    Reader(
        "encodings",
        with_encoding,
        ("read", FILE, "--as", "pairs"),
        tuple(name + b"\n" + PAIRS for name in ENCODINGS),
        tuple(ENCODINGS),
    ),
    Reader(
        "encodings of gml",
        with_encoding,
        ("read", FILE, "--as", "gml"),
        tuple(name + b"\n" + GML for name in ENCODINGS),
        (*ENCODINGS, b"\\ud800", b"+2AA-", b"\\x00"),
        needs="networkx",
    ),
    Reader(
        "sites",
        network.main,
        ("read", "--sites", FILE, "--reach", "9"),
        (SITES, b"name,x_km,y_km\na,0,0\nb,1,1\n", b"id;easting;northing\na;0,5;0\n"),
        tuple(b"site name id lat lon x_km y_m identifier , ; a b 48.1 -1e5".split()),
    ),
    Reader(
        "bars",
        network.main,
        ("read", BESIDE, "--bars", FILE),
        (b"site,channel\na,1\nb,2048\n",),
        tuple(b"site channel , a b c 1 2048 0".split()),
        beside=PAIRS,
    ),
    Reader(
        "channels",
        channels.main,
        (FILE,),
        (b"channel\n36\n40\n", b"name;channel\na;36\nb;40\n"),
        tuple(b"channel , ; 36 40".split()),
        ending=".csv",
        given=PLAN,
    ),
    Reader("plan", channels.main, ("1", "6", "11"), (PLAN,), tuple(b"plan 1 2 3 0".split())),
    Reader(
        "names",
        network.main,
        ("names", BESIDE),
        (PLAN, b"plan\n1 36\n2 40\n"),
        (b"plan",),
        beside=TWO,
    ),
    Reader("picture of a plan", picture.main, ("plan", BESIDE, "--plan", "-"), (PLAN,), beside=TWO),
    Reader("run", channels.main, ("--run",), (RUN,), tuple(b"node pulse channel 1 2 12".split())),
    Reader("transcript", transcript.main, ("check", "two", "-"), (ENTRIES, ALONE), OF_TRANSCRIPTS),
    Reader(
        "transcript of edition 1",
        transcript.main,
        ("check", BESIDE, "-", "--json"),
        (
            b"transcript 1 2\n"
            + b"".join(b"%d pulse %d\n" % (v, p) for v in (1, 2) for p in range(1, 13)),
        ),
        OF_TRANSCRIPTS,
        beside=b"p edge 2 0\n",
    ),
    Reader(
        "transcript of leader",
        transcript.main,
        ("check", "path2", "-", "--program", "leader"),
        (ENTRIES.replace(b"2 2", b"3 leader 2", 1).replace(b"hello", b"leader"),),
        OF_TRANSCRIPTS,
    ),
    Reader(
        "transcript of reactions",
        transcript.main,
        ("check", "path2", "-", "--program", ECHO),
        (OF_ECHO,),
        OF_REACTIONS,
    ),
    Reader(
        "as rounds",
        transcript.main,
        ("convert", "rounds", "-", "--program", "leader"),
        (OF_ALPHA,),
        OF_REACTIONS,
    ),
    Reader("as json", transcript.main, ("convert", "json", "-"), (ENTRIES, OF_ALPHA), OF_REACTIONS),
    Reader(
        "as shiviz", transcript.main, ("convert", "shiviz", "-"), (ENTRIES, OF_ALPHA), OF_REACTIONS
    ),
    Reader(
        "events",
        simulate.main,
        ("path2", "--program", "leader", "--events", "-"),
        (b"put 1 0\nput 2 0\ntake 2 0: a note\nc x\npulse 1\n",),
        tuple(b"put take pulse c : 0 1 2".split()),
    ),
    Reader(
        "events of reactions",
        simulate.main,
        ("path2", "--program", ECHO, "--events", "-"),
        (b"put 1 0\ntake 2 0: wave from 1\nput 2 0\nc x\ntake 1 0\n",),
        tuple(b"put take act c : 0 1 2".split()),
    ),
    Reader(
        "picture of a run",
        picture.main,
        ("run", "path2", "--program", "leader", "--wrong", "--transcript", "-"),
        (ENTRIES.replace(b"2 2", b"3 leader 2", 1).replace(b"hello", b"leader"),),
        OF_TRANSCRIPTS,
    ),
    Reader(
        "program",
        program,
        (FILE,),
        (PROGRAM,),
        tuple(b"def ( ) [ : \n return not - x".split(b" ")),
        ending=".py",
    ),
    Reader(
        "commands",
        commands,
        (FILE,),
        (b"rounds: python3 a.py\nalpha: ./x 'y z'\n",),
        (b"rounds:", b"'", b"\\"),
    ),
    Reader(
        "answer",
        answer,
        ("rounds",),
        (b"put 0 hello 7\ncolour 0 5\nchose 1\nend\n", b"channel 2\n end \n"),
        tuple(b"put 0 hello colour chose channel end".split()),
    ),
    Reader(
        "call",
        call,
        (),
        (b'{"network": "p edge 1 0\\n", "steps": [1, [2]]}',),
        tuple(b'{ } [ ] " : , 1'.split()),
    ),
    Reader(
        "address",
        address,
        (),
        (
            b"net=10.20_90.20~1-2~i1-17~b2-1~n1-O%20o&tab=run&seed=7&slow=1-2&other=newest.2",
            b"example=path&tab=adversary&program=layers&root=2&steps=1-2_2-1&without=acks,fifo",
        ),
        tuple(b"= & ~ _ - . , % %41 %E0 net example tab seed steps 1 0 n1- i1- b1-".split()),
    ),
    Reader(
        "code",
        words_of(network.main),
        ("tell", "{text}"),
        (b"C8 vertex 1", b"F5"),
        tuple(b"C8 vertex line : 1".split()),
    ),
    Reader(
        "columns",
        words_of(network.main),
        ("read", BESIDE, "--as", "pairs", "--columns", "{text}"),
        (b"source=a,target=b", b'"source=a,b",target=c'),
        tuple(b'source target = , "'.split()),
        beside=PAIRS,
    ),
    Reader(
        "words of channels",
        words_of(channels.main),
        ("{text}",),
        (b"1 6 11", b"36-64/4"),
        tuple(b"1 36 - / , ;".split()),
        given=PLAN,
    ),
)
