"""The studio's server. It answers 127.0.0.1 alone, and what isn't a file of the page only with the token, which no page
of another origin knows.

Each request is answered by a process of its own, forked from one that has loaded everything and has no thread, once the
head of the request is there (connections.py). So a call has its own limits of time and memory, none disturbs another
one, and nothing is kept between two calls. Who has no token can't take the processes of calls. A process ends, with all
that it has started, when the browser hangs up: that is how a page cancels a call. An answer is lines of JSON: how far
it is, then what came out."""
import contextlib
import hmac
import http.server
import io
import json
import os
import re
import select
import signal
import socket
import socketserver
import sys
import threading
import time
import traceback
from collections.abc import Callable, Iterator
from typing import Any

from forestplan.faults import Fault
from forestplan.folders import PACKAGE, TOP
from forestplan.pictures import pages
from forestplan.pictures.page_data import as_object
from forestplan.studio import limits
from forestplan.studio.building import Building
from forestplan.studio.calls import CALLS
from forestplan.studio.connections import Connection, Connections, SECONDS_TO_ASK, Received
from forestplan.studio.fields import object_of
from forestplan.studio.session import Session

HOST = "127.0.0.1"
FOLDERS = os.path.join(PACKAGE, "studio", "page"), pages.FOLDER
FILES = {name: os.path.join(folder, name) for folder in FOLDERS for name in os.listdir(folder)}
# The pictures of the lessons.
PICTURES = os.path.join(TOP, "docs", "pictures")
FILES |= {f"pictures/{name}": os.path.join(PICTURES, name) for name in os.listdir(PICTURES)}
KINDS = {
    ".html": "text/html",
    ".css": "text/css",
    ".js": "text/javascript",
    ".svg": "image/svg+xml",
}
# Bytes of a call; and of a file, which leaves at once, however slowly it is read.
MOST_ASKED = 8 << 20
MOST_SENT = 1 << 20
# Seconds in which the rest of a refused request has to come.
MOMENT = 1
# Processes that answer at once: calls with the token, and all others.
MOST_CALLS = 32
MOST_OTHERS = 32
NO_TOKEN = (
    "The token is missing or another: open the address that `studio` has printed; if it is open, "
    "reload this page."
)
# The page runs its own scripts alone.
OF_PAGE = (
    "default-src 'none'; script-src 'self'; style-src 'self' 'unsafe-inline'; img-src 'self' data: blob:; "
    "connect-src 'self'; form-action 'self'; frame-ancestors 'none'; base-uri 'none'"
)


class Server(socketserver.ForkingMixIn, http.server.HTTPServer):
    """Listens at a port of this machine. `active_children` are the processes that answer, `calls` those that answer a
    call with the token."""

    # The server itself never waits for one of them.
    max_children = sys.maxsize
    request_queue_size = 128
    block_on_close = False

    def __init__(self, port: int, token: str, folder: str, session: Session) -> None:
        self.token = token
        self.building = Building(folder, session)
        self.process = os.getpid()
        self.session = session
        self.active_children: set[int] = set()
        self.calls: set[int] = set()
        super().__init__((HOST, port), Handler)
        self.connections = Connections(self.socket)
        self.received = b""

    def serve_forever(self, poll_interval: float = 0.3) -> None:
        while True:
            self.connections.hear(poll_interval)
            self.service_actions()
            for one in list(self.connections.asked):
                self.begin_answer(one)

    def service_actions(self) -> None:
        super().service_actions()
        self.calls &= self.active_children
        self.building.look()

    def begin_answer(self, one: Connection) -> None:
        """Has a process answer it, if there is one for it. A call waits for one; who has no token only for a while."""
        is_call = self.has_token(one.received)
        others = len(self.active_children) - len(self.calls)
        if len(self.calls) >= MOST_CALLS if is_call else others >= MOST_OTHERS:
            if not is_call and one.until < time.monotonic():
                self.connections.asked.remove(one)
                one.socket.close()
            return
        before = set(self.active_children)
        self.received = one.received
        self.connections.asked.remove(one)
        try:
            self.process_request(one.socket, one.address)
        except OSError:
            # No process could be begun.
            self.shutdown_request(one.socket)
        if is_call:
            self.calls |= self.active_children - before

    def has_token(self, head: bytes) -> bool:
        found = re.search(
            rb"(?im)^X-Token:[ \t]*([^\r\n]*?)[ \t]*\r?$", head.partition(b"\r\n\r\n")[0]
        )
        return found is not None and hmac.compare_digest(found[1], self.token.encode())

    def finish_request(self, request: Any, client_address: Any) -> None:
        self.connections.close_in_child(request)
        super().finish_request(request, client_address)

    def server_bind(self) -> None:
        # The name of the machine isn't looked up.
        socketserver.TCPServer.server_bind(self)
        self.server_name, self.server_port = self.socket.getsockname()[:2]

    def address(self) -> str:
        return f"http://{HOST}:{self.server_port}/?token={self.token}"

    def end_all(self) -> None:
        """Ends the processes that answer, each with what it has started."""
        for process in list(self.active_children or ()):
            with contextlib.suppress(ProcessLookupError, PermissionError, ChildProcessError):
                os.killpg(process, signal.SIGKILL)
                os.waitpid(process, 0)
        self.building.end()
        self.server_close()

    def handle_error(self, request: object, client_address: object) -> None:
        if not isinstance(sys.exc_info()[1], OSError):
            traceback.print_exc()


class Answer:
    """Lines of JSON to the page; a thread of `Watch` may write the last one."""

    def __init__(self, handler: "Handler") -> None:
        self.handler = handler
        self.lock = threading.Lock()
        self.told = 0.0

    def line(self, **what: object) -> None:
        as_json = json.dumps(what, separators=(",", ":"), ensure_ascii=False, default=as_object)
        text = as_json.encode(errors="replace") + b"\n"
        with self.lock:
            self.handler.wfile.write(text)

    def tell(self, done: int = 0, of: int = 0, part: object = None) -> None:
        """How far a call is, ten times a second at most; or a part of what will come out."""
        if part is not None:
            self.line(part=part)
        elif time.monotonic() - self.told > 0.1:
            self.told = time.monotonic()
            self.line(done=done, of=of)


class Handler(http.server.BaseHTTPRequestHandler):
    """One request; then the connection ends."""

    server: Server
    timeout = SECONDS_TO_ASK
    server_version = "studio"
    sys_version = ""

    def setup(self) -> None:
        # One limit for the whole request, however slowly its bytes come: this process ends.
        signal.alarm(SECONDS_TO_ASK)
        super().setup()
        self.rfile = io.BufferedReader(Received(self.server.received, self.connection))

    def log_message(self, *_: object) -> None:
        pass

    def own_names(self) -> list[str]:
        return [f"{name}:{self.server.server_port}" for name in (HOST, "localhost")]

    def is_from_page(self) -> bool:
        """Whether the request was sent to this server by its name, and by no page of another origin: a name that
        another server's owner has pointed here isn't answered."""
        own = self.own_names()
        origin = self.headers.get("Origin")
        site = self.headers.get("Sec-Fetch-Site")
        return (
            self.headers.get("Host") in own
            and origin in [None, *(f"http://{name}" for name in own)]
            and site in (None, "same-origin", "none")
        )

    def headed(self, status: int, kind: str, length: int | None = None) -> None:
        self.send_response(status)
        for name, value in (
            ("Content-Type", f"{kind}; charset=utf-8"),
            ("Content-Length", length),
            ("Content-Security-Policy", OF_PAGE),
            ("Cache-Control", "no-store"),
            ("X-Content-Type-Options", "nosniff"),
            ("Referrer-Policy", "same-origin"),
            ("Cross-Origin-Resource-Policy", "same-origin"),
            ("Cross-Origin-Opener-Policy", "same-origin"),
        ):
            if value is not None:
                self.send_header(name, str(value))
        self.end_headers()

    def refuse(self, status: int, why: str) -> None:
        body = (why + "\n").encode()
        self.headed(status, "text/plain", len(body))
        self.wfile.write(body)
        # What is under way is taken, for a moment: an end that has it left over loses the refusal.
        with contextlib.suppress(OSError):
            self.connection.shutdown(socket.SHUT_WR)
            self.connection.settimeout(MOMENT)
            while self.connection.recv(1 << 16):
                pass

    def do_GET(self) -> None:
        """A file of the page: they are no secret, and have none in them. A link from elsewhere may open the page."""
        if self.headers.get("Host") not in self.own_names():
            return self.refuse(403, "This server answers to its own address alone.")
        self.connection.setsockopt(socket.SOL_SOCKET, socket.SO_SNDBUF, MOST_SENT)
        path = self.path.split("?")[0]
        name = "page.html" if path == "/" else path[1:]
        kind = KINDS.get(os.path.splitext(name)[1])
        if name.endswith(".js") and name[:-3] in pages.MADE:
            body = pages.MADE[name[:-3]]().encode()
        elif kind and name in FILES:
            with open(FILES[name], "rb") as file:
                body = file.read()
        else:
            return self.refuse(404, "There is no such page.")
        self.headed(200, kind or KINDS[".js"], len(body))
        self.wfile.write(body)

    def do_POST(self) -> None:
        """A call, `/call/NAME` with JSON."""
        _, way, name = (self.path + "//").split("/")[:3]
        if not self.is_from_page():
            return self.refuse(403, "This call isn't from the studio's own page.")
        given = self.headers.get("X-Token", "")
        if not hmac.compare_digest(given.encode(), self.server.token.encode()):
            return self.refuse(403, NO_TOKEN)
        length = self.headers.get("Content-Length", "")
        if not re.fullmatch("[0-9]{1,9}", length) or int(length) > MOST_ASKED:
            return self.refuse(413, f"A call has at most {MOST_ASKED:,} bytes.")
        body = self.rfile.read(int(length))
        signal.alarm(0)
        if way != "call" or name not in CALLS:
            return self.refuse(404, "There is no such call.")
        try:
            asked = object_of(body)
        except Fault as why:
            return self.refuse(400, f"{why}.")
        self.headed(200, "application/x-ndjson")
        answer = Answer(self)
        with limited_call(self, lambda why: answer.line(wrong=why)):
            found = limits.outcome(
                lambda: CALLS[name].answer(asked, self.server.session, answer.tell)
            )
        if found.kind == "answer":
            return answer.line(answer=found.answer)
        return answer.line(wrong=found.wrong)


@contextlib.contextmanager
def limited_call(handler: Handler, say: Callable[[str], None]) -> Iterator[None]:
    """This process gets its limits, and ends if the browser hangs up, the server ends or time is up."""
    limits.limit_process()
    done = threading.Event()
    threading.Thread(target=watch, args=(handler, done, say), daemon=True).start()
    try:
        yield
    finally:
        done.set()


def watch(handler: Handler, done: threading.Event, say: Callable[[str], None]) -> None:
    """Ends this process, and what it has started, when nobody waits for it any more."""
    connection = handler.connection
    until = time.monotonic() + limits.SECONDS
    while not done.wait(0.1):
        is_late = time.monotonic() > until
        if is_late:
            with contextlib.suppress(OSError):
                say(limits.TOO_LATE)
                connection.shutdown(socket.SHUT_RDWR)
        if is_late or has_hung_up(connection) or os.getppid() != handler.server.process:
            os.killpg(0, signal.SIGKILL)


def has_hung_up(connection: socket.socket) -> bool:
    if not select.select([connection], [], [], 0)[0]:
        return False
    try:
        return connection.recv(1, socket.MSG_PEEK | socket.MSG_DONTWAIT) == b""
    except BlockingIOError:
        return False
    except OSError:
        return True
