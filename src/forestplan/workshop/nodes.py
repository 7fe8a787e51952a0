"""The nodes of a network as programs: each a process of its own, or all that have one command in one process."""
import time
from collections.abc import Callable
from typing import ParamSpec, TypeVar

from forestplan.process_exit import held
from forestplan.workshop.findings import NoAnswer
from forestplan.workshop.guard import Guard, Limits
from forestplan.workshop.leftovers import end_all, is_reaper
from forestplan.workshop.processes import Process, start_program

Answer = list[str] | NoAnswer
Given = ParamSpec("Given")
Result = TypeVar("Result")
PATIENCE = 1.0  # seconds that programs have to end at the end of their input


class Nodes:
    """A program for each node, by the number of its command. Used in `with`, so that all are stopped, whatever
    happens."""

    def __init__(
        self,
        owners: list[int],
        commands: list[list[str]],
        limits: Limits,
        guard: Guard,
        is_shared: bool = False,
    ) -> None:
        self.owners = owners
        self.commands = commands
        self.limits = limits
        self.guard = guard
        self.is_shared = is_shared
        # How many processes and threads the programs' user had before.
        self.tasks = 0
        self.processes: list[Process] = []
        self.of: dict[int, Process] = {}

    def __enter__(self) -> "Nodes":
        self.tasks = self.guard.tasks()
        try:
            for v, owner in enumerate(self.owners, 1):
                self.start(v, owner)
        except BaseException:
            self.stop()
            raise
        return self

    def start(self, v: int, owner: int) -> None:
        same = self.owners.index(owner) + 1
        if self.is_shared and same < v:
            self.of[v] = self.of[same]
            return
        with held():
            self.processes.append(
                start_program(self.commands[owner], self.limits, self.guard, self.tasks)
            )
        self.of[v] = self.processes[-1]

    def __exit__(self, *why: object) -> None:
        self.stop()

    def ask(self, v: int, lines: list[str]) -> list[str]:
        self.of[v].send([f"to {v}", *lines] if self.is_shared else lines)
        return self.of[v].receive()

    def ask_all(self, questions: dict[int, list[str]]) -> dict[int, Answer]:
        """What each node answers, or its fault. With a process a node all questions are out before the first answer
        is read."""
        if self.is_shared:
            return {v: attempt(self.ask, v, lines) for v, lines in questions.items()}
        sent = {v: attempt(self.of[v].send, lines) for v, lines in questions.items()}
        answers: dict[int, Answer] = {}
        for v, fault in sent.items():
            if fault:
                answers[v] = fault
            else:
                answers[v] = attempt(self.of[v].receive)
        return answers

    def stop(self, patience: float = 0.0) -> None:
        """Ends all programs. None is left running, and all together are waited for no longer than that."""
        until = time.monotonic() + patience
        with held():
            for process in self.processes:
                process.end()
            while self.processes:
                self.processes.pop().stop(until)
            if is_reaper():
                end_all()


def attempt(
    do: Callable[Given, Result], *given: Given.args, **named: Given.kwargs
) -> Result | NoAnswer:
    """What a call returns, or the fault that it raises."""
    try:
        return do(*given, **named)
    except NoAnswer as fault:
        return fault
