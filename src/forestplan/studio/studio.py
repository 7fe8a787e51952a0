"""The door: `forestlab studio [NETWORK] [options]`. Serves the studio's page to this machine alone, until Ctrl-C."""
import gc
import os
import secrets
import sys
import tempfile
import webbrowser
from argparse import Namespace
from collections.abc import Iterable

from forestplan.definitions.programs import PROGRAMS, any_program_at
from forestplan.fault_codes import Code
from forestplan.faults import Fault, InText
from forestplan.files import text_at, text_name
from forestplan.network import Network
from forestplan.networks.forms import Stated, Unsaid
from forestplan.networks.options import commands_for
from forestplan.networks.reading import form_read, read_any
from forestplan.networks.sources import network_bytes
from forestplan.parsers import Parser, parser_of
from forestplan.studio.building import are_built
from forestplan.studio.call_values import form_of_program
from forestplan.studio.links import judged_links
from forestplan.studio.networks import drawable_net
from forestplan.studio.publishing import PAGE, publish
from forestplan.studio.server import Server
from forestplan.studio.session import SAMPLES, Form, Session
from forestplan.wording import one_line

PORT = 8321
NEXT_PORTS = 20
HELP = """\
Opens a page in the browser on which you draw a network and everything of it moves: its
plan, its rounds, runs without a clock, and what goes wrong without a rule.

The page comes from this command, which answers only this machine and needs no other.
Ctrl-C ends it, and all that it has started. If the proved programs aren't built yet, it
begins at once with Python's definitions, says so on the page, and has a button there
that proves and builds them. Only this button needs the Rattle kit.
"""
MORE_HELP = f"""\
NETWORK is a file in any form that `forestlab network read` reads, - for standard input, or
a name, as petersen or path5.

The address has a token, without which nothing is answered: give it to nobody. The page
keeps it, so that a link to what it shows has none. Lessons and links are for port {PORT};
if it is taken, one of the next {NEXT_PORTS - 1} is used, and printed. Through `ssh -L` the port has
to be the same at both ends.

With --own the nodes can run a program of your own, too (docs/learn/OWN_ALGORITHM.md):
the page names no file, it has the choice between those given here. Its text is beside
the network, and is loaded again when you save the file. It is run as it is, with your
rights. Nothing is proved of it.

With --links it opens nothing: it judges links that a class hands in, a line each, of the
tab Adversary with a dare in it, and says which are won. A link that can't be read has a
line with the reason. Each link may take 120 seconds and 2 GB, as a call of the page.

With --publish it opens nothing: it writes the page as files into DIR, which has to be new
or empty, and ends after about a minute. The page has the lessons, their exercises and the
lecture, with answers that are recorded. It needs no server, no network and no installation:
put the folder on a web server for phones, or open its index.html from a memory stick.

Status: 0 ended by Ctrl-C, all links could be judged, or the page is written, 1 the network
or a link can't be read, a link takes too much, the port is taken, or the page can't be
written, 2 the command line is refused.

Examples:
  forestlab studio petersen
  forestlab studio --publish lessons
"""


def command_line() -> Parser:
    parser = parser_of("studio", "[NETWORK] [options]", HELP, MORE_HELP)
    parser.add_argument("network", metavar="NETWORK", nargs="?", help="the network to begin with")
    parser.add_argument(
        "--port",
        type=int,
        metavar="N",
        help=f"the port, and no other; else {PORT} or one of the next",
    )
    parser.add_argument(
        "--links",
        metavar="FILE",
        help="judge the links of a class, one dare on each line, and end; - for standard input",
    )
    parser.add_argument(
        "--publish", metavar="DIR", help="write the lessons as a page that needs no server, and end"
    )
    parser.add_argument("--no-browser", action="store_true", help="only print the address")
    parser.add_argument(
        "--own",
        action="append",
        default=[],
        metavar="FILE.py",
        help="a program of your own; may be given again",
    )
    return parser


def own_programs(files: Iterable[str]) -> tuple[dict[str, str], dict[str, Form]]:
    """The paths of programs of one's own by their names, and their forms; and those of the samples, unless a file of
    one's own has the name of one."""
    found: dict[str, str] = {}
    forms: dict[str, Form] = {}
    for file in files:
        program = any_program_at(file)
        if not file.endswith(".py") or program.name in found or program.name in PROGRAMS:
            raise Fault(Code.OWN_FILE, InText(file))
        found[program.name] = file
        forms[program.name] = form_of_program(program)
    for name, file in SAMPLES.items():
        if name not in found and os.path.exists(file):
            found[name] = file
            forms[name] = "reactions"
    return found, forms


def server_at(port: int | None, folder: str, session: Session) -> Server:
    """The server at a port, or at the first free one from the usual one on."""
    for at in [port] if port is not None else range(PORT, PORT + NEXT_PORTS):
        try:
            return Server(at, secrets.token_urlsafe(24), folder, session)
        except OSError as why:
            refused = Fault(Code.PORT_REFUSED, port=at, why=why.strerror)
        except OverflowError:
            refused = Fault(Code.NO_PORT, port=at)
    raise refused


def can_open() -> bool:
    """Whether there is a browser with a window: one of the terminal would take the terminal."""
    return sys.platform == "darwin" or any(
        os.environ.get(name) for name in ("DISPLAY", "WAYLAND_DISPLAY")
    )


def open_browser(address: str, folder: str) -> None:
    """Opens the address by a file that only its owner can read, since all can see the words that a browser was called
    with."""
    path = os.path.join(folder, "studio.html")
    with open(
        path, "x", encoding="ascii", opener=lambda name, how: os.open(name, how, 0o600)
    ) as file:
        file.write(f'<!doctype html><meta http-equiv="refresh" content="0;url={address}">')
    webbrowser.open("file://" + path)


def opened(path: str) -> Network:
    """The network that the command line names."""
    try:
        form = form_read(path, Stated())
        return read_any(network_bytes(path), text_name(path), form, Stated())[0]
    except Unsaid as why:
        raise commands_for(why, ["network", "read"], [path], " | forestlab studio -") from None


def main(arguments: list[str]) -> int:
    given = command_line().parse_args(arguments)
    if given.publish is not None:
        return publish_page(given)
    if given.links is not None:
        return judge_links(given)
    with tempfile.TemporaryDirectory(prefix="forestplan-studio-") as folder:
        try:
            network = None if given.network is None else drawable_net(opened(given.network))
            session = Session(network, *own_programs(given.own), are_built())
            server = server_at(given.port, folder, session)
        except Fault as why:
            print(f"studio: {why}", file=sys.stderr)
            return 1
        moved = server.server_port != PORT and given.port is None
        also = f"; port {PORT} is taken, so lessons' links don't lead here" if moved else ""
        print(
            f"studio: {server.address()}\nstudio: Ctrl-C ends it{also}", file=sys.stderr, flush=True
        )
        return serve(server, None if given.no_browser or not can_open() else folder)


def judge_links(given: Namespace) -> int:
    """Says of each link of a file whether it wins its dare."""
    are_judged = True
    try:
        own, forms = own_programs(given.own)
        session = Session(own=own, forms=forms)
        for said, is_judged in judged_links(text_at(given.links).split("\n"), session):
            print(one_line(said), flush=True)
            are_judged = are_judged and is_judged
    except Fault as why:
        print(f"studio: {why}", file=sys.stderr)
        return 1
    return 0 if are_judged else 1


def publish_page(given: Namespace) -> int:
    """Writes the page that needs no server."""
    if given.network is not None or given.own or given.links is not None:
        said = "--publish takes no network, no --own and no --links: it has the lessons"
        print(f"studio: {said}", file=sys.stderr)
        return 2
    try:
        own, forms = own_programs([])
        size = publish(given.publish, Session(own=own, forms=forms, is_proved=are_built()))
    except Fault as why:
        print(f"studio: {why}", file=sys.stderr)
        return 1
    page = one_line(os.path.join(given.publish, PAGE))
    said = f"{page} is written, with all that it needs: {size / 1e6:.1f} MB"
    print(f"studio: {said}", file=sys.stderr)
    return 0


def serve(server: Server, folder: str | None) -> int:
    """Answers until Ctrl-C; a browser is opened by a file of the folder."""
    if folder:
        open_browser(server.address(), folder)
    # Each call is answered by a process of its own, which begins with what is loaded here.
    gc.collect()
    gc.freeze()
    try:
        server.serve_forever(poll_interval=0.3)
    except KeyboardInterrupt:
        pass
    finally:
        server.end_all()
    return 0
