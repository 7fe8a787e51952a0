"""Lists every place in src/forestplan/ that opens or reads a file or a stream, or starts a process, with its limit and
the reason for it. A place that isn't in the list fails, and so does a row of the list whose place is gone."""
import ast
import os
import pathlib
from collections.abc import Iterator

from tests import TOP
from tests.cases import Case

# Names of functions and methods that read, of what is read, and of what starts processes, whose output is read: used
# in any way, called or not.
READING = {
    *(
        "open",
        "fdopen",
        "popen",
        "read",
        "read1",
        "readline",
        "readlines",
        "readinto",
        "readall",
        "pread",
    ),
    *(
        "read_text",
        "read_bytes",
        "recv",
        "recvfrom",
        "recv_into",
        "recvmsg",
        "recv_bytes",
        "makefile",
    ),
    *(
        "urlopen",
        "urlretrieve",
        "fileinput",
        "mmap",
        "copyfileobj",
        "unpack_archive",
        "loadtxt",
        "genfromtxt",
    ),
    *(
        "stdin",
        "getpass",
        "load",
        "parse",
        "iterparse",
        "exec_module",
        "run_path",
        "spec_from_file_location",
    ),
    *("Popen", "check_output", "check_call", "getoutput", "getstatusoutput", "communicate"),
}
# Functions and methods of src/forestplan/ that have such a name, and read no file.
OWN = {
    (
        "src/forestplan/networks/network_text.py",
        "reading_of: read.read",
    ): "the method of `Reading` for a line",
    (
        "src/forestplan/networks/networkx_forms.py",
        "graph_read: for in warned",
    ): "a list of warnings",
    (
        "src/forestplan/networks/network.py",
        "was_read: tables.SiteTable(table, given.stated).read",
    ): "the method of `SiteTable` for a text",
    **{
        ("src/forestplan/networks/tables.py", f"{where}.read"): "the method of `Table` for a text"
        for where in (
            "pairs: Table(name, stated, ('source', 'target'))",
            "licence_of: Table(name, stated, ('channel',))",
            "with_bars: Table(name, stated, ('site', 'channel'))",
            "SiteTable.read: self.table",
        )
    },
    (
        "src/forestplan/workshop/clock_run.py",
        "ClockRun.answered: self.read",
    ): "the method for an answer",
    (
        "src/forestplan/workshop/clock_run.py",
        "RoundsRun.read: super().read",
    ): "the method for an answer",
    (
        "src/forestplan/workshop/right_rounds.py",
        "RightRounds.work_out: self.read",
    ): "the method for a line",
}
OF_TREE = "a file of this folder, which has its size"
OF_PROGRAM = "what a program of this folder says of a network within the limits"
WRITTEN = "it is opened to be written"
# (file, place): its limit, with the reason.
READS = {
    # What a user gives.
    (
        "src/forestplan/files.py",
        "bytes_in: file.read",
    ): "parts of 1 MiB up to the limit of the caller",
    (
        "src/forestplan/files.py",
        "bytes_at: sys.stdin",
    ): "256 MiB, a transcript 512 MiB: no network within the limits is longer",
    ("src/forestplan/files.py", "bytes_at: open"): "the same",
    (
        "src/forestplan/progress.py",
        "time_expected: open",
    ): "256 MiB by `bytes_in`: the program's own input, if it is a file",
    (
        "src/forestplan/workshop/submissions.py",
        "said_command: open",
    ): "64 KiB: the file `commands` has a line an assignment",
    ("src/forestplan/workshop/submissions.py", "said_command: file.read"): "64 KiB: the same",
    # What students' programs say.
    (
        "src/forestplan/workshop/processes.py",
        "start_program: subprocess.Popen",
    ): "its pipe is read in `receive`",
    (
        "src/forestplan/workshop/processes.py",
        "Process.send: os.read",
    ): "64 KiB: one part, which is refused",
    (
        "src/forestplan/workshop/processes.py",
        "Process.receive: os.read",
    ): "1 MiB, in parts of 64 KiB: `MOST_BYTES` of an answer",
    (
        "src/forestplan/workshop/processes.py",
        "Process.last_errors: self.errors.read",
    ): "16 KiB: it begins so far from the end",
    (
        "src/forestplan/workshop/compiling.py",
        "compiled: subprocess.run",
    ): "a file, which the guard's limit keeps below 16 MiB",
    ("src/forestplan/workshop/compiling.py", "unpack: for in classes"): "the same file",
    (
        "src/forestplan/workshop/compiling.py",
        "unpack: classes.read",
    ): "100 MB by the digits of its size, and the same file",
    (
        "src/forestplan/workshop/parts.py",
        "finished: pipe.recv_bytes",
    ): "the report of a process of our own, on at most 120 runs",
    # What a browser says.
    (
        "src/forestplan/studio/server.py",
        "Handler.do_POST: self.rfile.read",
    ): "8 MiB: `MOST_ASKED`, looked at before",
    (
        "src/forestplan/studio/server.py",
        "has_hung_up: connection.recv",
    ): "one byte, which is left there",
    (
        "src/forestplan/studio/server.py",
        "Handler.refuse: self.connection.recv",
    ): "64 KiB, which aren't kept",
    (
        "src/forestplan/studio/connections.py",
        "Connections.take: one.socket.recv",
    ): "64 KiB: `MOST_HEAD`",
    (
        "src/forestplan/studio/connections.py",
        "Received.readinto: self.connection.recv_into",
    ): "what its caller has room for, which is 8 MiB at most (Handler.do_POST)",
    (
        "src/forestplan/studio/limits.py",
        "all_of: os.read",
    ): "1 MiB (MOST_SAID), and 64 KiB of the next part",
    # What the system says.
    ("src/forestplan/progress.py", "process_fields: open"): "a line of /proc",
    ("src/forestplan/progress.py", "process_fields: file.read"): "a line of /proc",
    ("src/forestplan/workshop/leftovers.py", "processes: open"): "a line of /proc",
    ("src/forestplan/workshop/leftovers.py", "processes: file.read"): "a line of /proc",
    (
        "src/forestplan/workshop/memory.py",
        "process_file: open",
    ): "1 MiB of a file of /proc; more is refused",
    ("src/forestplan/workshop/memory.py", "process_file: file.read"): "the same",
    (
        "src/forestplan/workshop/calls.py",
        "Filter.program: os.pread",
    ): "the filter that this process has made",
    ("src/forestplan/workshop/sandbox.py", "Sandbox.enter: os.open"): "nothing is read of it here",
    ("src/forestplan/process_exit.py", "status_of: os.read"): "one byte",
    # What programs of this folder, or of the system, say.
    ("src/forestplan/proved_programs.py", "called: subprocess.run"): OF_PROGRAM,
    ("src/forestplan/interface/programs.py", "status_and_outputs: subprocess.run"): OF_PROGRAM,
    (
        "src/forestplan/workshop/workshop.py",
        "draw_wrong_run: subprocess.run",
    ): "a line of `forestlab picture`",
    (
        "src/forestplan/workshop/sandbox.py",
        "Sandbox.try_out: subprocess.run",
    ): "what bubblewrap says of `true`",
    (
        "src/forestplan/workshop/grade.py",
        "remove: subprocess.run",
    ): "what chmod and rm say of a folder of 1,000 files",
    ("src/forestplan/workshop/parts.py", "play: subprocess.run"): "nothing is read of it",
    ("src/forestplan/studio/building.py", "are_built: subprocess.run"): "nothing is read of it",
    (
        "src/forestplan/studio/building.py",
        "Building.__init__: subprocess.Popen",
    ): "no call: the type of a field",
    (
        "src/forestplan/studio/building.py",
        "Building.look: subprocess.Popen",
    ): "nothing is read of it: it writes the log",
    ("src/forestplan/studio/building.py", "build_so_far: open"): "16 KiB: the end of the log",
    ("src/forestplan/studio/building.py", "build_so_far: log.read"): "16 KiB: the same",
    ("src/forestplan/version.py", "commit: subprocess.run"): "a line of git",
    # Files of this folder.
    **{
        ("src/forestplan/studio/bundle.py", f"module_text: {what}"): OF_TREE
        for what in ("open", "file.read")
    },
    **{
        ("src/forestplan/studio/publishing.py", f"{where}: {what}"): OF_TREE
        for where in ("index_page", "published")
        for what in ("open", "file.read")
    },
    ("src/forestplan/studio/publishing.py", "write_files: open"): WRITTEN,
    **{
        ("src/forestplan/studio/recording.py", f"linked_places: {what}"): OF_TREE
        for what in ("open", "file.read")
    },
    ("src/forestplan/version.py", "version_text: open"): OF_TREE,
    ("src/forestplan/version.py", "version_text: file.read"): OF_TREE,
    ("src/forestplan/version.py", "version_text: kits.read"): OF_TREE,
    ("src/forestplan/pictures/pages.py", "geometry_script: open"): OF_TREE,
    ("src/forestplan/pictures/pages.py", "geometry_script: file.read"): OF_TREE,
    ("src/forestplan/pictures/translation.py", "translated: ast.parse"): OF_TREE,
    ("src/forestplan/pictures/pages.py", "page_file_text: open"): OF_TREE,
    ("src/forestplan/pictures/pages.py", "page_file_text: file.read"): OF_TREE,
    ("src/forestplan/studio/lessons.py", "page_text: open"): OF_TREE,
    ("src/forestplan/studio/lessons.py", "page_text: file.read"): OF_TREE,
    ("src/forestplan/studio/networks.py", "example_text: open"): OF_TREE,
    ("src/forestplan/studio/networks.py", "example_text: file.read"): OF_TREE,
    ("src/forestplan/studio/server.py", "Handler.do_GET: open"): OF_TREE,
    ("src/forestplan/studio/server.py", "Handler.do_GET: file.read"): OF_TREE,
    ("src/forestplan/workshop/class_files.py", "write_sums: open"): OF_TREE,
    ("src/forestplan/workshop/class_files.py", "write_sums: file.read"): OF_TREE,
    ("src/forestplan/workshop/class_files.py", "copy_class: open"): OF_TREE,
    ("src/forestplan/workshop/class_files.py", "copy_class: file.read"): OF_TREE,
    ("src/wheel_of_folder.py", "text_in: open"): OF_TREE,
    ("src/wheel_of_folder.py", "text_in: file.read"): OF_TREE,
    ("src/wheel_of_folder.py", "write_wheel: ast.parse"): OF_TREE,
    ("src/wheel_of_folder.py", "write_wheel: open"): OF_TREE,
    ("src/wheel_of_folder.py", "write_wheel: file.read"): OF_TREE,
    (
        "src/wheel_of_folder.py",
        "write_wheel: wheel.read",
    ): "a file of this folder, as it was packed",
    # What is written.
    ("src/forestplan/files.py", "write_output: open"): WRITTEN,
    ("src/forestplan/files.py", "write_apart: open"): WRITTEN,
    ("src/forestplan/process_exit.py", "run_command: os.open"): WRITTEN,
    ("src/forestplan/studio/building.py", "Building.look: open"): WRITTEN,
    ("src/forestplan/studio/limits.py", "limit_process: open"): WRITTEN,
    ("src/forestplan/studio/studio.py", "open_browser: open"): WRITTEN,
    ("src/forestplan/studio/studio.py", "open_browser: os.open"): WRITTEN,
    ("src/forestplan/studio/studio.py", "open_browser: webbrowser.open"): "a browser opens it",
    ("src/forestplan/workshop/class_files.py", "write_file: open"): WRITTEN,
    ("src/forestplan/workshop/compiling.py", "unpack: open"): WRITTEN,
    ("src/forestplan/workshop/grade.py", "write_reports: open"): WRITTEN,
    ("src/forestplan/workshop/workshop.py", "keep: open"): WRITTEN,
}
# Of the module subprocess, what starts nothing.
NAMES_OF_SUBPROCESS = {
    *("DEVNULL", "PIPE", "STDOUT", "TimeoutExpired", "SubprocessError", "CalledProcessError"),
    "CompletedProcess",
}
# What a function gets that is read line by line.
OF_FILES = ("IO", "TextIO", "BinaryIO", "TextIOWrapper", "BufferedReader")


def files() -> list[str]:
    """The modules of src/forestplan/, by their paths from the top."""
    return sorted(str(path.relative_to(TOP)) for path in pathlib.Path(TOP, "src").rglob("*.py"))


class Places(ast.NodeVisitor):
    """The places of a module that read, each with the functions around it."""

    def __init__(self, own: set[str]) -> None:
        # Names that the module defines, or has of another one of src/forestplan/.
        self.own = own
        self.around: list[str] = []
        self.found: list[str] = []
        self.opened: set[str] = set()

    def note(self, what: str) -> None:
        self.found.append(f"{'.'.join(self.around) or 'the module'}: {what}")

    def inside(self, node: ast.ClassDef | ast.FunctionDef | ast.AsyncFunctionDef) -> None:
        self.around.append(node.name)
        self.generic_visit(node)
        self.around.pop()

    visit_ClassDef = visit_FunctionDef = visit_AsyncFunctionDef = inside  # type: ignore[assignment]

    def visit_arg(self, node: ast.arg) -> None:
        hint = ast.unparse(node.annotation) if node.annotation else ""
        if hint.partition("[")[0].rpartition(".")[2] in OF_FILES:
            self.opened.add(node.arg)
        self.generic_visit(node)

    def visit_withitem(self, node: ast.withitem) -> None:
        if isinstance(node.optional_vars, ast.Name):
            self.opened.add(node.optional_vars.id)
        self.generic_visit(node)

    def visit_Attribute(self, node: ast.Attribute) -> None:
        owner = ast.unparse(node.value)
        if owner == "subprocess":
            is_reading = node.attr not in NAMES_OF_SUBPROCESS
        else:
            is_reading = node.attr in READING and (node.attr != "stdin" or owner == "sys")
        if is_reading:
            self.note(ast.unparse(node))
        self.generic_visit(node)

    def visit_Name(self, node: ast.Name) -> None:
        if node.id in (*READING, "input") and node.id not in self.own:
            self.note(node.id)

    def visit_ImportFrom(self, node: ast.ImportFrom) -> None:
        if not (node.module or "").startswith("forestplan"):
            for alias in node.names:
                if alias.name in READING:
                    self.note(f"from {node.module} import {alias.name}")

    def visit_For(self, node: ast.For | ast.comprehension) -> None:
        if isinstance(node.iter, ast.Name) and node.iter.id in self.opened:
            self.note(f"for in {node.iter.id}")
        self.generic_visit(node)

    visit_comprehension = visit_For


def places_of(text: str) -> set[str]:
    """The places of the text of a module."""
    tree = ast.parse(text)
    places = Places(own_names(tree))
    places.visit(tree)
    return set(places.found)


def own_names(tree: ast.Module) -> set[str]:
    """The names that a module defines, gives a value, or has of another one of src/forestplan/."""
    found: set[str] = set()
    for node in ast.walk(tree):
        if isinstance(node, (ast.FunctionDef, ast.ClassDef)):
            found.add(node.name)
        elif isinstance(node, ast.arg):
            found.add(node.arg)
        elif isinstance(node, ast.Name) and isinstance(node.ctx, ast.Store):
            found.add(node.id)
        elif isinstance(node, ast.ImportFrom) and (node.module or "").startswith("forestplan."):
            found |= {alias.asname or alias.name for alias in node.names}
    return found


def all_places() -> Iterator[tuple[str, str]]:
    for file in files():
        for place in sorted(places_of(pathlib.Path(TOP, file).read_text(encoding="utf-8"))):
            yield file, place


# (a function that reads, its place): the test that each is found.
FOUND = (
    ("def f(p):\n    return open(p).read()", "f: open"),
    ("def f(p):\n    return open(p).read()", "f: open(p).read"),
    ("def f(p):\n    return list(map(open, p))", "f: open"),
    ("def f(file):\n    g = file.readline\n    return g()", "f: file.readline"),
    ("from os import read", "the module: from os import read"),
    ("def f(p):\n    with g(p) as file:\n        return [l for l in file]", "f: for in file"),
    ("def f(file: IO[str]):\n    for line in file:\n        pass", "f: for in file"),
    ("def f():\n    for line in sys.stdin:\n        pass", "f: sys.stdin"),
    ("def f(p):\n    return pathlib.Path(p).read_text()", "f: pathlib.Path(p).read_text"),
    ("class C:\n    def f(self):\n        return json.load(self.x)", "C.f: json.load"),
    ("def f():\n    return subprocess.run('x', capture_output=True).stdout", "f: subprocess.run"),
    ("def f(s):\n    return s.a().recv(9)", "f: s.a().recv"),
    ("def f(u):\n    return urllib.request.urlopen(u)", "f: urllib.request.urlopen"),
    ("x = open(0)", "the module: open"),
)


class Reads(Case):
    def test_each_way_of_reading_is_found(self) -> None:
        for text, place in FOUND:
            self.note(place, place in places_of(text), places_of(text))

    def test_no_call_is_no_place(self) -> None:
        self.same("a word", places_of("def f(x):\n    return x.write(reading, opened)"), set())

    def test_each_place_has_its_limit(self) -> None:
        found, listed = set(all_places()), READS.keys() | OWN.keys()
        for place in sorted(found - listed):
            self.note(": ".join(place), False, "it reads, and has no limit in the list READS")
        for place in sorted(listed - found):
            self.note(": ".join(place), False, "the list READS has it, and it isn't there")
        self.same("places", found, listed)
        self.note(
            "there are some",
            len(found) > 50 and os.path.isdir(os.path.join(TOP, "src", "forestplan")),
        )
