"""One student's program as a process: a message goes to its standard input, and its answer, up to a line `end`,
comes from its standard output. Whatever it does, the workshop goes on: what is no answer raises NoAnswer, and `stop`
leaves no process."""
import contextlib
import os
import re
import select
import signal
import subprocess
import tempfile
import time
from dataclasses import dataclass
from typing import IO

from forestplan.workshop.findings import NoAnswer
from forestplan.workshop.guard import Guard, Limits
from forestplan.workshop.protocol import END, MOST_BYTES, lines_of, start_of_output

LOOK = 0.004  # seconds between two looks whether a program has ended
LOOK_AT_FILES = 1.0  # seconds between two looks at what a program that says nothing writes
FIRST_FACTOR = 3  # the first answer may take so many times as long
FIRST_HINT = " (does it flush standard output after `end`, and answer before it reads on after the line `end`?)"
LAST_LINES = 5
LAST_LETTERS = 600
LAST_BYTES = 1 << 14
# What isn't shown: lines with which Python marks a place in the line above, Java's line on the options that grading
# gives it, and of a list of calls, as Java and JavaScript print it, all but the two innermost.
UNSHOWN = re.compile(
    r"(?m)^[ \t\r^~]*\n|^Picked up JAVA_TOOL_OPTIONS: .*\n|((?:^[ \t]*at .*\n){2})(?:^[ \t]*at .*\n)+"
)
START_HINT = (
    "; is it `chmod +x`, does its first line say what runs it, as `#!/usr/bin/env python3`, without Windows' line "
    "ends, and is it called as `./FILE` or `python3 FILE`?"
)
ENDED_BY = 128
SIGNALS: dict[int, str] = {int(one): one.name for one in signal.Signals}
# What a signal means that is one of a limit.
OF_LIMITS: dict[int, str] = {
    signal.SIGXFSZ: " (it wrote too much to a file or to standard error)",
    signal.SIGXCPU: " (it used too much processor time)",
}


class Process:
    """A program that runs, as `start_program` starts it. `asked` counts the messages, and `errors` has what it writes
    to standard error."""

    def __init__(
        self, process: "subprocess.Popen[bytes]", errors: IO[bytes], limits: Limits, guard: Guard
    ) -> None:
        self.process = process
        self.errors = errors
        self.limits = limits
        self.guard = guard
        self.asked = 0
        self.until = 0.0
        assert process.stdin and process.stdout
        self.pipes = process.stdin, process.stdout
        self.input, self.output = (pipe.fileno() for pipe in self.pipes)
        os.set_blocking(self.input, False)
        self.readable = select.poll()
        self.writable = select.poll()
        self.readable.register(self.output, select.POLLIN)
        self.writable.register(self.input, select.POLLOUT)

    def look(self) -> None:
        self.guard.look(self.process.pid, self.limits.memory)

    def send(self, lines: list[str]) -> None:
        """Sends a message; what the program wrote without being asked is garbage."""
        self.look()
        if self.asked and self.readable.poll(0):
            got = os.read(self.output, 1 << 16)
            raise after_its_end(got) if got else self.ended()
        self.asked += 1
        self.until = time.monotonic() + self.seconds()
        text = "".join(line + "\n" for line in [*lines, "end"]).encode()
        while text:
            try:
                text = text[os.write(self.input, text) :]
            except BlockingIOError:
                self.wait(self.writable, "it doesn't read what it is sent")
            except BrokenPipeError:
                raise self.ended() from None

    def receive(self) -> list[str]:
        """The lines of the answer, without its `end`."""
        self.look()
        got = bytearray()
        while not (end := END.search(got)):
            if len(got) > MOST_BYTES:
                raise NoAnswer(
                    "flood", f"it wrote more than {MOST_BYTES} bytes without a line `end`"
                )
            nothing = "it wrote nothing" + FIRST_HINT * (self.asked == 1)
            self.wait(
                self.readable,
                f"it wrote {start_of_output(got)}, and no line `end`" if got else nothing,
            )
            part = os.read(self.output, 1 << 16)
            if not part:
                raise self.ended(got)
            got += part
        if len(got) > end.end():
            raise after_its_end(got[end.end() :])
        return lines_of(got[: end.start()])

    def wait(self, poll: select.poll, silent: str) -> None:
        until = min(self.until, self.limits.over)
        while not poll.poll(1000 * max(0.0, min(LOOK_AT_FILES, until - time.monotonic()))):
            self.look()
            found = exit_of(self.process.pid, 0)
            if found and not poll.poll(0):
                sentence = f"it ended with {found}, and what it has started goes on"
                raise NoAnswer("ended", sentence + self.last_errors(), found.is_by_signal)
            if time.monotonic() < until:
                continue
            if until < self.until:
                raise NoAnswer("late", "the time for all runs is over")
            raise NoAnswer(
                "silent", f"{silent} within {self.seconds():g} seconds{self.last_errors()}"
            )

    def seconds(self) -> float:
        """How long an answer may take: the first one longer, since the program starts meanwhile."""
        return self.limits.timeout * (FIRST_FACTOR if self.asked == 1 else 1)

    def ended(self, got: bytes | bytearray = b"") -> NoAnswer:
        """How it ended in the middle, or why it was ended."""
        if self.process.pid in self.guard.faults:
            return self.guard.faults[self.process.pid]
        found = exit_of(self.process.pid, time.monotonic() + 1)
        if found is None:
            sentence = "it closed its standard input or output, and goes on running"
            return NoAnswer("ended", sentence + self.last_errors())
        after = f" after {start_of_output(got)}" if got else ""
        sentence = f"it ended with {found}{after} instead of an answer"
        return NoAnswer("ended", sentence + self.last_errors(), found.is_by_signal)

    def last_errors(self) -> str:
        """The end of what is on its standard error, if there is any."""
        size = self.errors.seek(0, os.SEEK_END)
        self.errors.seek(max(0, size - LAST_BYTES))
        text = last_errors(self.errors.read())
        return f"; on standard error: {text}" if text else ""

    def end(self) -> None:
        """No more messages: a program that reads to the end of its input ends now."""
        with contextlib.suppress(OSError):
            self.pipes[0].close()

    def stop(self, until: float) -> None:
        """Kills it, and what it started, unless it ends by itself until then. The group is killed before the
        process is collected: until then nobody else can get its number."""
        self.end()
        exit_of(self.process.pid, until)
        with contextlib.suppress(ProcessLookupError, PermissionError):
            os.killpg(self.process.pid, signal.SIGKILL)
        self.process.wait()
        self.guard.leave(self.process.pid)
        self.pipes[1].close()
        self.errors.close()


def start_program(command: list[str], limits: Limits, guard: Guard, tasks: int) -> Process:
    """Starts a program, or raises NoAnswer if that can't be done."""
    try:
        errors = tempfile.TemporaryFile()
        process = subprocess.Popen(
            guard.arguments(command),
            stdin=subprocess.PIPE,
            stdout=subprocess.PIPE,
            stderr=errors,
            bufsize=0,
            **guard.start(limits, tasks),
        )
    except OSError as why:
        said = f"{start_of_output(' '.join(command))} can't be started: {why.strerror}{START_HINT}"
        raise NoAnswer("start", said) from None
    guard.programs.add(process.pid)
    return Process(process, errors, limits, guard)


def after_its_end(got: bytes | bytearray) -> NoAnswer:
    return NoAnswer(
        "garbage", f"it wrote after the line `end` of its answer: {start_of_output(got)}"
    )


@dataclass(frozen=True)
class Ending:
    """How a process ended: with a status, or by the signal of this number."""

    number: int
    is_by_signal: bool

    def __str__(self) -> str:
        """`status 3`, or `signal SIGKILL`."""
        if not self.is_by_signal:
            return f"status {self.number}"
        return f"signal {SIGNALS.get(self.number, self.number)}{OF_LIMITS.get(self.number, '')}"


def exit_of(pid: int, until: float) -> Ending | None:
    """How a process ended, and None if it runs on until then. It isn't collected."""
    while True:
        found = os.waitid(os.P_PID, pid, os.WEXITED | os.WNOHANG | os.WNOWAIT)
        if found:
            return ending(found.si_status, found.si_code == os.CLD_EXITED)
        left = until - time.monotonic()
        if left <= 0:
            return None
        time.sleep(min(LOOK, left))


def ending(number: int, is_status: bool) -> Ending:
    """The end of a process. Of a program that a signal has ended shells and bubblewrap say 128 and its number."""
    if is_status and number - ENDED_BY not in SIGNALS:
        return Ending(number, False)
    return Ending(number - ENDED_BY if is_status else number, True)


def last_errors(text: bytes) -> str:
    """What a program that ended wrote to standard error at last, so that the place of its mistake is among it: the last
    lines in one, or nothing."""
    lines = UNSHOWN.sub(r"\1", text.decode("utf-8", "replace") + "\n").splitlines()
    last = " | ".join(line.strip() for line in lines[-LAST_LINES:])
    return start_of_output(last[-LAST_LETTERS:], LAST_LETTERS) if last else ""
