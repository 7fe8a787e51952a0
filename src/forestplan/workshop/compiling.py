"""Compiles a source in Java, which each start of it would compile: in the container of the submission, as the compiler
reads what a student wrote, and may run it. It writes the classes to its standard output, and nothing to a folder."""
import contextlib
import os
import re
import shutil
import subprocess
import tempfile
from typing import IO

from forestplan.workshop.guard import Guard, Limits

# Less than the time in which a part has to end beside its runs.
SECONDS = 40
MEGABYTES = 2048
# Before each class a line with its size and its name.
COMPILE = """\
mkdir classes && javac -proc:none -d classes "$0" && cd classes &&
for name in *.class; do wc -c "$name" >&3 && cat "$name" >&3; done
"""
CLASS = re.compile(rb"([0-9]{1,8}) ([A-Za-z0-9_$]+\.class)\n")
JAVA = ["java", "-Xmx64m", "-XX:+UseSerialGC", "-cp", "."]


def compiled(command: list[str], folder: str, guard: Guard) -> list[str]:
    """What runs the class of a source, after it was put into the folder; or the command as it is."""
    name, ending = os.path.splitext(command[-1])
    if command[:-1] != ["java"] or ending != ".java" or not shutil.which("javac"):
        return command
    with tempfile.TemporaryFile() as classes:
        with contextlib.suppress(subprocess.TimeoutExpired):
            subprocess.run(
                guard.arguments(["sh", "-c", f"exec 3>&1 >&2; {COMPILE}", command[-1]]),
                timeout=SECONDS,
                stdin=subprocess.DEVNULL,
                stdout=classes,
                stderr=subprocess.DEVNULL,
                **guard.start(Limits(SECONDS, MEGABYTES, 1), guard.tasks()),
            )
        classes.seek(0)
        names = unpack(classes, folder)
    return [*JAVA, name] if f"{name}.class" in names else command


def unpack(classes: IO[bytes], folder: str) -> list[str]:
    """Puts the classes into a folder, up to the first that isn't whole; returns their names."""
    names = []
    for line in classes:
        found = CLASS.fullmatch(line)
        data = classes.read(int(found[1])) if found else b""
        if not found or len(data) < int(found[1]):
            break
        names.append(found[2].decode())
        with open(os.path.join(folder, names[-1]), "wb") as file:
            file.write(data)
    return names
