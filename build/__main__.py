"""The door of what proves, builds and installs: `python3 build NAME [arguments]`, as the scripts call it. How a command
ends in place of a traceback is in src/forestplan/process_exit.py."""
import importlib
import os
import sys

MODULES = {
    "command-table": "command_table",
    "completion": "completion",
    "crate-tables": "crate_tables",
    "gate-record": "gate_record",
    "help-texts": "help_texts",
    "install": "install",
    "new-program": "new_program",
    "page-types": "page_types",
    "program": "program",
    "release": "release",
    "wrong-bodies": "wrong_bodies",
}
HELP = f"""\
Proves, builds, installs and copies what is in this tree.

usage: python3 build NAME [words]

NAME is one of {', '.join(MODULES)}.
`python3 build NAME --help` says more of each."""


def main() -> int:
    top = os.path.dirname(os.path.dirname(os.path.realpath(__file__)))
    # Run as a folder, its own place comes first where modules are looked for. A Python that is too old reads this file
    # and the module of the package that says so.
    sys.path[0] = os.path.join(top, "src", "forestplan")
    python = importlib.import_module("_python")
    if python.IS_TOO_OLD:
        print(f"build: {python.NEEDED} is needed, and python3 is {python.FOUND}", file=sys.stderr)
        return 2
    sys.path[:1] = [top, os.path.join(top, "src")]
    name = sys.argv[1] if len(sys.argv) > 1 else ""
    if name not in (*MODULES, "--version"):
        is_asked = name in ("-h", "--help")
        print(
            HELP if is_asked else f"build: one of these is wanted: {', '.join(MODULES)}",
            file=sys.stdout if is_asked else sys.stderr,
        )
        return 0 if is_asked else 2
    sys.argv[:2] = sys.argv[1:2]
    module = (
        "forestplan.version" if "--version" in (name, *sys.argv[1:2]) else f"build.{MODULES[name]}"
    )
    process_exit = importlib.import_module("forestplan.process_exit")
    status: int = process_exit.run_command(name, lambda: importlib.import_module(module).main)
    return status


if __name__ == "__main__":
    sys.exit(main())
