"""Tests of the server of the studio: whom it answers, what it refuses, what it answers, and that a call ends with its
browser."""
import base64
import contextlib
import http.client
import json
import os
import re
import signal
import socket
import subprocess
import sys
import threading
import time
from collections import Counter
from unittest import mock

from forestplan.definitions.nodes import COLOURING
from forestplan.definitions.rounds import ColouringRounds
from forestplan.fault_codes import Code
from forestplan.faults import Fault
from forestplan.networks.network_text import network_in_bytes
from forestplan.schedules.policies import POLICIES
from forestplan.pictures.page_data import as_object
from forestplan.pictures.player_page import SAY
from forestplan.studio import building, judges, server
from forestplan.studio.calls import CALLS
from forestplan.studio.predictions import found_after
from forestplan.studio.session import Session
from tests import TOP
from tests.cases import (
    Case,
    complaints_of,
    copied,
    example,
    examples,
    found_in,
    is_running,
    said_by,
    text_in,
    wait_until,
)
from tests.tools import needs

TRIANGLE = "p edge 3 3\ne 1 2\ne 1 3\ne 2 3\n"
EDGE, ROW = "p edge 2 1\ne 1 2\n", "p edge 3 2\ne 1 2\ne 2 3\n"
BUILDER = """\
import sys, time
print(*sys.argv[1:], '3 of 9 crates proved', file=sys.stderr, flush=True)
time.sleep(100)
"""
# A program of one's own, with what it does in place of a greeting.
OWN = (
    "import time\n\n\ndef greet(node):\n    {}\n\n\ndef next(node, pulse, inbox):\n    return []\n\n\n"
    "def result(node):\n    return ''\n"
)


def ended(connection):
    """Whether the other end has ended a connection, of which nothing is read."""
    try:
        return not connection.recv(1, socket.MSG_PEEK | socket.MSG_DONTWAIT)
    except BlockingIOError:
        return False


def begin(*arguments, top=TOP):
    """(process, address) of a studio, as a shell in the foreground would start it."""
    process = subprocess.Popen(
        [
            sys.executable,
            "-S",
            os.path.join(top, "src", "forestplan"),
            "studio",
            "--no-browser",
            *arguments,
        ],
        stderr=subprocess.PIPE,
        text=True,
        preexec_fn=lambda: signal.signal(signal.SIGINT, signal.default_int_handler),
    )
    return process, found_in(r"http\S+", complaints_of(process).readline()).group()


class Server(Case):
    """A studio at a free port, and what is asked of it."""

    arguments: list[str] = []
    top = TOP

    def setUp(self):
        with socket.create_server(("127.0.0.1", 0)) as free:
            self.port = free.getsockname()[1]
        self.process, address = begin("--port", str(self.port), *self.arguments, top=self.top)
        self.token = address.partition("token=")[2]

    def tearDown(self):
        self.process.send_signal(signal.SIGINT)  # and not SIGKILL, which leaves its folder
        self.process.wait(60)
        self.process.stderr.close()

    def calls(self):
        """The processes that the server has started."""
        pid = self.process.pid
        return text_in(f"/proc/{pid}/task/{pid}/children").split()

    def interrupt(self, what):
        """Ctrl-C ends the server, and what it has started."""
        started = self.calls()
        self.process.send_signal(signal.SIGINT)
        self.same("Ctrl-C ends the server", self.process.wait(30), 0)
        are_ended = wait_until(lambda: not any(map(is_running, started)), 20)
        self.note(f"and {what}", started and are_ended, started)

    def asked(self, path, body="{}", method="POST", **headers):
        """The connection on which this is asked; a header is None to be left out."""
        given = {
            "Content-Length": str(len(body.encode())),
            "Host": f"127.0.0.1:{self.port}",
            "X-Token": self.token,
        }
        given |= {name.replace("_", "-"): value for name, value in headers.items()}
        end = http.client.HTTPConnection("127.0.0.1", self.port, timeout=60)
        end.putrequest(method, path, skip_host=True, skip_accept_encoding=True)
        for name, value in given.items():
            if value is not None:
                end.putheader(name, value)
        end.endheaders()
        end.send(body.encode())
        return end

    def ask(self, *asked, **headers):
        """(status, text) of a request. The headers that came are `headers`."""
        end = self.asked(*asked, **headers)
        got = end.getresponse()
        text, self.headers = got.read().decode(), got.headers
        end.close()
        return got.status, text

    def get(self, path, **headers):
        return self.ask(path, "", "GET", **headers)

    def answer(self, call, /, **asked):
        status, text = self.ask(f"/call/{call}", json.dumps(asked))
        return json.loads(text.split("\n")[-2]) if status == 200 else {"status": status}

    def found(self, call, /, **asked):
        """The answer to a call that is no refusal."""
        return self.answer(call, **asked)["answer"]

    def refuses(self, name, sentence, call, /, **asked):
        """The row of a call that is refused in words."""
        got = self.answer(call, **asked)
        self.note(name, sentence in got.get("wrong", ""), got)


class Tokens(Case):
    def test_in_the_head_alone(self):
        """A connection has the token if a line of its head has it, whatever comes after the head."""
        own = server.Server.__new__(server.Server)
        own.token = "abc"
        for head, body, has_it in (
            *((b"X-Token: abc", b"", True), (b"x-token:abc", b"X-Token: x", True)),
            *((b"X-Token: abcd", b"", False), (b"Y: x", b"X-Token: abc", False)),
        ):
            received = b"POST /call/hello HTTP/1.1\r\n%s\r\n\r\n%s" % (head, body)
            self.same(f"{received!r}", own.has_token(received), has_it)


class Refusals(Server):
    def test_refused(self):
        """Who isn't the page gets nothing."""
        own = f"http://127.0.0.1:{self.port}"
        status, text = self.ask("/call/hello", Origin=own, Sec_Fetch_Site="same-origin")
        self.note("the page's own call", status == 200, text)
        for header, wanted, values in (
            ("X_Token", 403, (None, "x" * 32, "\xff")),
            ("Origin", 403, ("http://evil.example", "null", "http://127.0.0.1:1")),
            ("Sec_Fetch_Site", 403, ("cross-site", "same-site")),
            ("Host", 403, (f"evil.example:{self.port}", None)),
            ("Content_Length", 413, ("99999999", None, "-1")),
        ):
            for value in values:
                status, text = self.ask("/call/hello", **{header: value})
                self.note(f"{header} {value!a}", status == wanted, (status, text))
        for path in ("/call/nothing", "/call/__class__", "/frame/hello", "/call/", "/", "/x/y/z"):
            self.note(f"no call {path}", self.ask(path)[0] in (403, 404), self.ask(path))
        for path in (
            "/../call_values.py",
            "/call_values.py",
            "/page/../../call_values.py",
            "/%2e%2e/call_values.py",
            "//etc/passwd",
        ):
            self.same(f"no file {path}", self.get(path)[0], 404)
        self.same("the page by another name", self.get("/", Host="evil.example")[0], 403)
        status, text = self.get("/", X_Token=None)
        self.note("the page, without the token", status == 200 and self.token not in text)
        self.get("/api.js")
        policy = self.headers["Cross-Origin-Resource-Policy"]
        self.same("no script of others", policy, "same-origin")
        policy = self.headers["Content-Security-Policy"]
        self.note("no frame of others", "frame-ancestors 'none'" in policy, policy)

    def test_no_files(self):
        """No call reads a file that it names, or runs a program that the command line hasn't given."""
        for name in (
            "../src/forestplan/process_exit",
            "/etc/passwd",
            "petersen.col",
            "../examples/petersen",
        ):
            self.refuses(f"example {name}", "no example", "example", name=name)
        for name in ("/x.py", "x.py", "examples/algorithms/independent_set.py", "?"):
            for call in ("run", "steps", "rounds"):
                policy = {"policy": "random"} if call == "run" else {}
                asked = {"network": TRIANGLE, "program": name} | policy
                self.refuses(f"{call} of program {name}", "no program", call, **asked)
        rows: list[tuple[str, dict, str]] = [
            ("run", {"policy": "random", "slow": [[1, 9]]}, "isn't in this network"),
            ("plan", {"network": "p edge 2 1\ne 1 3\n"}, "(F5)"),
            ("broken", {"without": "x"}, "no such rule"),
            ("picture", {"kind": "x"}, "there is no x"),
            ("picture", {"kind": "results", "program": "matching passes 2"}, "not for matching"),
            ("picture", {"kind": "results", "program": "recolouring passes 65"}, "1 to 64 passes"),
            ("steps", {"without": "x"}, "no such rule"),
            *(("steps", {"steps": step}, "isn't possible") for step in ("1", "1-9", "x", "1-2-1")),
            ("steps", {"list": "c a list\nput 1 0\nput 1 0"}, "line 3: `put 1 0` isn't"),
            ("steps", {"list": "take 1 0 1"}, "overtakes"),
        ]
        for call, fields, sentence in rows:
            self.refuses(f"{call} {fields}", sentence, call, **{"network": TRIANGLE} | fields)
        wrong: tuple[tuple[dict, str], ...] = (
            ({}, "lacks its field network"),
            ({"network": 7}, "field network of the call: a text"),
            ({"network": TRIANGLE}, "lacks its field node"),
            ({"network": TRIANGLE, "node": "x"}, "field node of the call: a whole number"),
            ({"network": TRIANGLE, "node": 4}, "field node: there is no node 4"),
            ({"network": TRIANGLE, "node": 1, "vertx": 1}, "no field vertx"),
        )
        for given, sentence in wrong:
            self.refuses(f"nonsense {given}", sentence, "why", **given)
        twice = self.ask("/call/why", '{"node": 1, "node": 2}')
        self.note("a field twice", twice[0] == 400 and "node twice" in twice[1], twice)
        for size in ("", "1e2", "-1", None, float("inf"), 401):
            got = self.answer("make", kind="ring", sizes={"nodes": size})
            self.note(f"a ring of {size}", "fault" not in got.get("wrong", "fault"), got)
        nested = "[" * 100_000
        self.same("what is nested deeply", self.ask("/call/plan", nested)[0], 400)
        self.note("half a letter", "\ud800" not in str(self.answer("example", name="\ud800")))
        self.note("still there", self.found("hello")["examples"])

    def test_silent(self):
        """Connections whose bytes come slowly, or never, keep nobody waiting for long."""
        slow = [socket.create_connection(("127.0.0.1", self.port)) for _ in range(33)]
        request = (
            f"POST /call/hello HTTP/1.1\r\nHost: 127.0.0.1:{self.port}\r\nX-Token: {self.token}\r\n"
            "Content-Length: 500\r\n\r\n"
        ).encode()

        def drip():
            for byte in request + b"{" * 400:
                for end in slow:
                    with contextlib.suppress(OSError):
                        end.sendall(bytes([byte]))
                if is_answered.wait(0.25):
                    return

        is_answered = threading.Event()
        dripping = threading.Thread(target=drip)
        dripping.start()
        # It is asked with a limit of its own.
        self.note("33 of them", self.answer("hello").get("answer"))
        is_answered.set()
        dripping.join()
        for end in slow:
            end.close()

    def held(self, many, said=b"", room=None):
        """So many connections that say this and no more, each of which is renewed when it ends, until the test does."""
        is_over = threading.Event()

        def hold():
            while not is_over.is_set():
                with contextlib.suppress(OSError), socket.socket() as end:
                    if room:
                        end.setsockopt(socket.SOL_SOCKET, socket.SO_RCVBUF, room)
                    end.connect(("127.0.0.1", self.port))
                    end.sendall(said)
                    while not is_over.wait(0.2) and not ended(end):
                        pass

        threads = [threading.Thread(target=hold, daemon=True) for _ in range(many)]
        for thread in threads:
            thread.start()

        def end_all():
            is_over.set()
            for thread in threads:
                thread.join()

        self.addCleanup(end_all)
        time.sleep(1)

    def soon(self, name):
        """The row of a call and of a file that are answered soon: a connection may be silent for ten seconds."""
        begun = time.monotonic()
        answer, (status, _) = self.answer("hello"), self.get("/api.js")
        took = time.monotonic() - begun
        self.note(name, answer.get("answer") and status == 200 and took < 7, (took, status))

    def test_held(self):
        """Who has no token keeps nobody waiting, however many connections it holds, and whatever it says on them."""
        head = f"Host: 127.0.0.1:{self.port}\r\n"
        for name, many, said, room in (
            ("nothing", 100, "", None),
            ("half a head", 100, f"POST /call/hello HTTP/1.1\r\n{head}X-Token: x", None),
            ("no body", 100, f"POST /call/hello HTTP/1.1\r\n{head}Content-Length: 9\r\n\r\n", None),
            ("a long head", 100, "GET / HTTP/1.1\r\n" + "a: b\r\n" * 20_000, None),
            ("files that are never read", 40, f"GET /page.html HTTP/1.1\r\n{head}\r\n", 2048),
        ):
            with self.subTest(name):
                self.held(many, said.encode(), room)
                self.soon(f"{many} connections: {name}")
                self.doCleanups()
        self.note("still there", self.answer("hello").get("answer"))

    def test_port(self):
        done = said_by("studio", "--port", self.port, "--no-browser", limit=60)
        self.refusal("a port that is taken", done, 1, f"port {self.port}: ")


class Memory(Server):
    def setUp(self):
        own = os.path.join(TOP, "examples", "algorithms", "independent_set.py")
        hungry = self.file("hungry.py", OWN.format("return bytearray(3 << 30)"))
        self.arguments = ["--own", hungry, "--own", own]
        super().setUp()

    def test_memory(self):
        asked = {"network": TRIANGLE, "program": "independent_set", "policy": "random"}
        judge = self.found("run", **asked)["judge"]
        self.same("one's own program", (judge["ok"], judge["by"]), (True, "Python (not proved)"))
        asked = {"network": TRIANGLE, "program": "hungry"}
        self.refuses("3 GB are refused", "MemoryError", "rounds", **asked)
        self.note("still there", self.answer("hello").get("answer"))


class Output(Case):
    def test_the_longest(self):
        """An output of a proved program of so many bytes is taken, and one of a byte more is refused."""
        for more in (0, 1):
            wrote = subprocess.CompletedProcess([], 0, b"x" * ((64 << 20) + more), b"")
            with mock.patch.object(judges, "called", lambda *_, wrote=wrote: wrote):
                found: object
                try:
                    found = len(judges.said_by("forestplay", [])[1])
                except Fault as why:
                    found = why.code
            self.same(f"{more} more", found, Code.OUTPUT_TOO_LONG if more else 64 << 20)


class Beginnings(Case):
    @needs("bin/forestplay")
    def test_what_is_refused(self):
        """The definitions refuse an entry with the word of the proved machine, and with what it says after its line."""
        net, greeting = network_in_bytes(EDGE.encode()), "1 put 2 payload 0 hello 1"
        for entries, word in (
            (["1 pulse 1"], "NotReady"),
            (["1 put 2 ack 0"], "WrongWire"),
            ([greeting, "1 put 2 ack 0"], "NothingToPut"),
            ([greeting, "1 take 2 ack 0"], "LinkEmpty"),
            (["1 put 3 ack 0"], "NoSuch"),
        ):
            own, proved = (
                judges.beginning_judged(net, EDGE, entries, COLOURING, Session(is_proved=is_proved))
                for is_proved in (False, True)
            )
            line = len(entries) + 1
            said = own.said.removeprefix(f"line {line}: {word}:").strip()
            after = proved.said.removeprefix(f"forestplay: {word} line {line + 3}").lstrip(": ")
            self.same(f"{entries}: refused", (own.ok, proved.ok), (False, False))
            self.same(f"{entries}: what is said", said, after)
            self.note(f"{entries}: {word}", word in own.said, own.said)


class Explained(Case):
    def test_drops(self):
        """Which colour is dropped in which pulse, as lesson 3 has it."""
        rounds = ColouringRounds(network_in_bytes(TRIANGLE.encode()))
        for pulse, dropped in ((8, 5), (10, 4), (12, 3)):
            why = found_after(rounds, 2, pulse, 0)[1]
            rule = SAY["drop"].format(dropped)
            self.same(f"pulse {pulse}", why[: len(rule)], rule)


class Threads(Case):
    @needs("bin/forestplan", "bin/forestplay")
    def test_each_program(self):
        """A run of threads of the proved program that plays it: forestplan the colouring, forestplay others."""
        for name in ("colouring", "leader"):
            asked = {"network": TRIANGLE, "how": "threads", "program": name}
            found = CALLS["run"].answer(asked, Session(is_proved=True), lambda *_, **__: None)
            judge = json.loads(json.dumps(found, default=as_object))["judge"]
            self.note(name, judge["ok"], judge)


class Builds(Case):
    def test_how_it_ends(self):
        """The programs are proved once a build has ended well and they are there."""
        self.addCleanup(signal.signal, building.WANTED, signal.getsignal(building.WANTED))
        for status, are_there in ((0, True), (0, False), (1, True)):
            session = Session(is_proved=False)
            own = building.Building(self.folder, session)

            def is_over(own=own):
                own.look()
                return own.process is None

            own.want()
            command = ["sh", "-c", f"exit {status}"]
            with mock.patch.object(building, "BUILD", command):
                with mock.patch.object(building, "are_built", return_value=are_there):
                    wait_until(is_over, 60)
            found, wanted = building.build_so_far(session), status == 0 and are_there
            got = found.proved, found.ended, own.process
            self.same(f"status {status}, {are_there}", got, (wanted, True, None))


class Answers(Server):
    def opened(self, name, text, *stated):
        """What is answered to a file that is dropped on the page."""
        data = base64.b64encode(text.encode()).decode()
        return self.answer("read", name=name, data=data, stated=stated)

    def test_files(self):
        """A file is read by what is stated of it, and what isn't is asked."""
        table = "a,b\nOslo,Ulm\n"
        asked = self.opened("x.txt", table)["answer"]
        forms = [choice["stated"] for choice in asked["choices"]]
        wanted = [["--as", form] for form in ("pairs", "edges", "adjacency", "dimacs")]
        self.same("its form is asked", forms, wanted)
        asked = self.opened("x.txt", table, *asked["choices"][0]["stated"])["answer"]
        self.same("its columns are asked", asked["titles"], ["a", "b"])
        arguments = ("--as", "pairs", "--columns", '"source=a","target=b"')
        got = self.opened("x.txt", table, *arguments)["answer"]
        self.same("it is read", (got["edges"], got["nodes"][0]["name"]), ([[1, 2]], "Oslo"))
        got = self.opened("x.csv", table, "--no-heading")["answer"]
        self.same("without a heading", got["edges"], [[1, 2], [3, 4]])
        got = self.opened("the text", TRIANGLE, "--as", "dimacs")["answer"]
        self.same("the page's own text", got["edges"], [[1, 2], [1, 3], [2, 3]])
        got = self.opened("x.dot", "graph { a -- b }")
        self.note("with what can be done", "gv2gml -o x.gml x.dot" in got.get("wrong", ""), got)
        for stated in (("--columns", "x=1"), ("--sites", "x"), (7,)):
            got = self.opened("x.csv", table, *stated)
            self.note(f"stated as {stated}", "wrong" in got, got)

    def test_answers(self):
        lessons = self.found("hello")["lessons"]
        self.note("all lessons", [one["number"] for one in lessons] == [*range(1, 9)], lessons)
        plan = self.found("plan", network=TRIANGLE)
        self.note("plan", plan["plan"] == [2, 3, 1], plan)
        self.note("rounds", self.found("rounds", network=TRIANGLE)["last"] == 30)
        run = self.found("run", network=TRIANGLE, how="seed", policy="random", seed="7")
        good = (
            run["judge"]["ok"] and run["results"] == [2, 3, 1] and run["same"][0] == run["same"][1]
        )
        self.note("run", good, run["same"])
        # Of the edges 3, the forests 2: greetings, labels, ten colours and choices; a safe a link and pulse, one close.
        self.same(
            "its safes and closes", (run["costs"]["safe"], run["costs"]["close"]), (6 * 30, 6)
        )
        self.same("its acks", run["costs"]["ack"], run["costs"]["payload"])
        slow = self.found("run", network=TRIANGLE, policy="slow-node", seed="7")
        self.note(
            "which node waits",
            slow["of"] in ("node 1", "node 2", "node 3") and not run["of"],
            slow["of"],
        )
        lines = run["text"].split("\n")
        spoilt = "\n".join(lines[:50] + lines[51:])
        self.note("a line less", not self.found("judge", network=TRIANGLE, transcript=spoilt)["ok"])
        rows = [
            ([2, 3, 1], "proper 3"),
            ([2, 2, 1], "C4 vertices 1 2"),
            ([2, 0, 1], "C1 vertex 2"),
            ([2, 4, 1], "C5 vertex 2"),
            ([0, 4, 4], "C5 vertex 2"),
        ]
        for given, said in rows:
            got = self.found("check", network=TRIANGLE, plan=given)
            self.note(f"check {given}", got["said"] == said, got)
        got = self.found("check", network=TRIANGLE + "b 1 2\n", plan=[2, 3, 1])
        self.note("a barred channel", (got["code"], got["at"]) == ("C8", [1]), got)

    def test_replay(self):
        """Where a run is after its first entries, counted by hand."""
        run = self.found("run", network=TRIANGLE, how="seed", policy="random", seed="7")
        lines = run["text"].split("\n")
        got = self.found("replay", network=TRIANGLE, transcript="\n".join(lines[:101]))
        self.same("a beginning of it", (got["ok"], got["entries"]), (True, 100))
        made = [line.split()[1:] for line in lines[1:101]]
        kinds = Counter(kind for _, kind, *_ in made)
        self.same("under way after it", got["wires"], kinds["put"] - kinds["take"])
        pulses = [[int(v), int(more[0])] for v, kind, *more in made if kind == "pulse"]
        wanted = [max((p for v, p in pulses if v == node), default=0) for node in (1, 2, 3)]
        self.same("the nodes' pulses after it", got["pulses"], wanted)

    def test_seeds(self):
        """A run by a seed is that of `forestlab simulate`, under each policy."""
        two = example("two").decode()
        for policy in POLICIES:
            wanted = said_by("simulate", "two", "--policy", policy, "--seed", "7")[1]
            got = self.found("run", network=two, how="seed", policy=policy, seed="7")
            self.same(f"policy {policy}", got["text"], wanted)

    def test_steps(self):
        """A run made by hand: what is possible, what goes wrong without a rule, and the rest of it by chance."""
        start = self.found("steps", network=EDGE)
        self.note(
            "two greetings are on their way",
            start["steps"] == ["1-2", "2-1"] and not start["made"],
            start,
        )
        done = self.found("steps", network=EDGE, by=200, seed="3")
        found = [look["found"] for look in done["looks"]]
        self.note("chance ends it", found == [1, 2] and done["judge"]["ok"], done)
        other = self.found("steps", network=EDGE, by=200, seed="4")
        self.note("by its seed", other["made"] != done["made"], other)
        turn = self.found("steps", network=EDGE, without="fifo", steps="2-1_1-2-1")
        again = self.found("steps", network=EDGE, without="fifo", list="\n".join(turn["list"]))
        self.note(
            "what overtakes is in the list",
            "take 1 0 1" in turn["list"] and again["made"] == turn["made"],
            turn,
        )
        held = self.found("steps", network=TRIANGLE, slow=[[1, 2]], by=200)
        at = [look["pulse"] for look in held["looks"]]
        self.note(
            "a held link holds its nodes", at[0] == at[1] == 0 and "1-2" in held["steps"], held
        )
        held = self.found("steps", network=ROW, lazy=[1], by=200)
        self.note(
            "a held pulse holds no message",
            [look["pulse"] for look in held["looks"]] == [0, 1, 2],
            held["looks"],
        )
        step = self.found("steps", network=TRIANGLE, in_step=True)
        self.note("in step", [look["pulse"] for look in step["looks"]] == [1, 1, 1], step["looks"])
        alone = self.found("steps", network="p edge 1 0\n", in_step=True)
        self.same("a node alone", (alone["last"], alone["looks"][0]["pulse"]), (12, 1))
        early = "3-1_1-3_1-2_2-1_1-2_2-1"
        wrong = self.found("steps", network=TRIANGLE, without="acks,safes", steps="1")
        self.note("without safes and acks", "without `hello 2` from 2" in wrong["fault"], wrong)
        got = self.found("steps", network=TRIANGLE, list="\n".join(step["list"]))
        self.note(
            "a list is played again",
            got["made"] == step["made"] and got["looks"] == step["looks"],
            got,
        )
        run = self.found("run", network=TRIANGLE, policy="random", seed="1", steps=early)
        begins = [line.split()[1:3] for line in run["text"].split("\n")[1:]]
        self.note(
            "the rest by chance", run["judge"]["ok"] and ["3", "take"] in begins, run["judge"]
        )

    def test_dares(self):
        """A dare is won by steps, in the studio and in a list of links."""
        rows: list[tuple[str, dict, bool, str]] = [
            ("path", {"dare": "ends", "lazy": [1]}, True, "2 of 2 pulses apart"),
            ("path", {"dare": "apart", "lazy": [1]}, False, "1 of 2 pulses"),
            ("two", {"dare": "results"}, False, "the same results"),
            ("path", {"dare": "results", "lazy": [1]}, False, "not all nodes"),
            ("path", {"dare": "wrong"}, False, "nothing is wrong"),
        ]
        networks = {name: text.decode() for name, text in examples().items()}
        links = ["", "https://localhost/#tab=adversary"]
        for name, asked, is_won, said in rows:
            network = networks[name]
            got = self.found("steps", network=network, by=200, seed="1", **asked)
            self.same(f"{asked}", got["dare"]["won"], is_won)
            self.note(f"{asked}, in words", said in got["dare"]["said"], got["dare"])
            place = f"dare={asked['dare']}&steps={'_'.join(got['made'])}"
            links.append(f"http://127.0.0.1:8321/#example={name}&tab=adversary&{place}")
        network = "net=0.0_90.0~1-2~i1-77_2-5~b1-3~n1-Oslo"
        overtaken = "without=acks,fifo&steps=1-2-1_1"
        links.append(f"#{network}&{overtaken}&dare=wrong")
        status, out, _ = said_by("studio", "--links", "-", data="\n".join(links).encode())
        found = [line.split(": ")[1] for line in out.splitlines()]
        wanted = ["can't be read", "won", "not won", "not won", "not won", "not won", "won"]
        self.same("a list of links", (status, found), (1, wanted))

    def test_predictions(self):
        """What a student says comes beside what the definitions find: colours as lesson 3 works them out."""
        petersen = examples()["petersen"].decode()
        rows: tuple[tuple[str, dict, str], ...] = (
            *((petersen, {"node": 8, "pulse": p}, c) for p, c in enumerate("82311", 2)),
            (TRIANGLE, {"node": 2, "pulse": 26}, "3"),
            (TRIANGLE, {"node": 2, "pulse": 25}, "-"),
            (EDGE, {"node": 1, "pulse": 1, "program": "leader"}, "leader 2"),
        )
        for network, asked, found in rows:
            for said in (f" {found.upper()} ", f"{found}1"):
                got = self.found("predict", network=network, guess=said, **asked)
                wanted = (said != f"{found}1", found, True)
                self.same(f"{asked} {said}", (got["right"], got["found"], bool(got["why"])), wanted)
        for steps, found in (
            ("", "ack 2, safe 2"),
            ("1-2", "ack 2, safe 2"),
            ("2-1_1-2_1-2", "safe 2"),
        ):
            got = self.found("waits", network=EDGE, node=1, steps=steps, guess=found)
            self.same(f"what node 1 waits for after {steps}", got["found"], found)

    def test_results(self):
        """The picture of what nodes have found, by the program with its option."""
        rows: tuple[tuple[str, dict, list[str]], ...] = (
            (EDGE, {"program": "recolouring passes 3"}, ["channel 1", "channel 2"]),
            (ROW, {"program": "layers root 3"}, ["layer 2 by 0", "layer 1 by 1", "layer 0"]),
            (EDGE, {}, ["channel 1", "channel 2"]),
        )
        for network, asked, wanted in rows:
            got = self.answer("picture", network=network, kind="results", **asked)
            found = re.findall(r"<title>node \d+: (.*?)</title>", got.get("answer", ""))
            self.note(f"results of {asked}", found == wanted, got)

    def test_broken(self):
        """What goes wrong without a rule, here or on a smallest network; pages/test_studio_page.py has the matching."""
        right = "the rounds of this network go right without it"
        got = self.found("broken", network=EDGE, without="shift")
        self.note("without a shift", "<svg" in got["picture"] and got["lines"], got["lines"])
        all_right = f"{right}, and so do those of all 1,094 networks of up to 5 nodes"
        for program, rule, sentence, bars in (
            ("recolouring", "bars", right, [[1], [], []]),
            ("matching", "last", all_right, None),
        ):
            got = self.found("broken", network=EDGE, program=program, without=rule)
            found = got["found"] and [node["bars"] for node in got["found"]["nodes"]]
            drawn = "<svg" in (got["picture"] or "")
            shown = (got["here"], got["lines"], found, drawn)
            self.same(f"without {rule}", shown, (False, [sentence], bars, rule != "last"))
        asked = {"network": EDGE, "program": "leader", "without": "partner"}
        self.refuses("no rule of the leader", "no such rule", "broken", **asked)

    def test_passes_of_a_run(self):
        """A run of two passes ends at pulse 18 + 2 · 2 on an edge, and its text is no run of one pass."""
        asked, two = {"network": EDGE}, {"program": "recolouring passes 2"}
        text = self.found("run", **two, **asked, policy="random", seed="1")["text"]
        got = self.answer("picture", kind="run", transcript=text, **two, **asked)
        self.note("run of two passes", "</svg>" in got.get("answer", ""), got)
        self.note("its last pulse", " of 22" in got.get("answer", ""), got)
        got = self.answer("picture", kind="run", transcript=text, program="recolouring", **asked)
        self.note("it is no run of one", "wrong" in got, got)


class Ends(Server):
    def setUp(self):
        # Three nodes of it take 45 seconds, in which nothing is written that could fail.
        self.arguments = ["--own", self.file("sleeps.py", OWN.format("time.sleep(15)"))]
        # A server that is killed leaves its folder.
        self.enterContext(mock.patch.dict(os.environ, TMPDIR=self.folder))
        super().setUp()

    def slow_call(self, unsent=0):
        body = json.dumps({"network": TRIANGLE, "program": "sleeps"})
        end = self.asked("/call/rounds", body, Content_Length=len(body) + unsent)
        self.addCleanup(end.close)
        self.note("a call is under way", wait_until(self.calls, 20))
        return end

    def test_ends(self):
        """A call ends with its browser, though it has nothing to write, and all with the server."""
        self.slow_call().close()
        self.note("it ends with its browser", wait_until(lambda: not self.calls(), 20))
        self.slow_call()
        self.interrupt("its calls")

    def test_killed(self):
        """The calls of a server that is killed end by themselves, also one that isn't read yet."""
        self.slow_call()
        end = self.slow_call(unsent=1)
        self.note("two calls", wait_until(lambda: len(self.calls()) == 2, 20))
        started = self.calls()
        self.process.kill()
        self.process.wait()
        end.send(b" ")
        self.note("they end", wait_until(lambda: not any(map(is_running, started)), 20))


class Unbuilt(Answers):
    """The same answers on a tree without a build: they are those of the definitions. The button begins the build."""

    def setUp(self):
        self.top = os.path.join(self.folder, "tree")
        copied(self.top, "src", "examples", "bin", "docs", "forestplan")
        # In place of what proves: it says so, and builds nothing.
        self.file("tree/build/__main__.py", BUILDER)
        os.chmod(self.file("tree/bin/rt", ""), 0o755)
        path = os.path.join(self.top, "bin") + os.pathsep + os.environ["PATH"]
        self.enterContext(mock.patch.dict(os.environ, PATH=path))
        super().setUp()

    def test_what_needs_the_kit(self):
        """The page and the help say that proving needs the kit."""
        page = " ".join(text_in("src", "forestplan", "studio", "page", "page.html").split())
        button = found_in(r'<button id="begin".*?</button>', page)[0]
        self.note("the button", "needs the Rattle kit" in button, button)
        said = said_by("studio", "--help")[1]
        self.note("the help", "Only this button needs the Rattle kit." in said, said)

    def test_build(self):
        self.note("it isn't said to be proved", self.found("hello")["proved"] is False)
        self.refuses("no threads", "aren't built", "run", network=TRIANGLE, how="threads")
        self.note("no build by itself", self.found("built")["lines"] == [])
        # However slow the machine is, the answer to the button is that it has begun.
        got = self.found("build")
        self.note("a build has begun", got["lines"] and not got["ended"], got)
        wait_until(lambda: self.found("built")["lines"] != ["it begins"], 20)
        got = self.found("built")
        self.note(
            "a build in its own words",
            not got["ended"]
            and got["lines"] == ["program forestplan forestplay 3 of 9 crates proved"],
            got,
        )
        self.interrupt("the build")
