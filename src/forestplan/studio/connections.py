"""The connections of the studio's server before a process answers them. One that says nothing, or says it slowly, holds
no process: what it has sent is kept here until the head of its request is whole, or its time is up."""
import io
import selectors
import socket
import time
from collections.abc import Iterator
from dataclasses import dataclass, field
from typing import Any

# A browser opens connections on which it says nothing yet.
SECONDS_TO_ASK = 10
# Bytes of a head; and connections that wait: the oldest one gives way to one more.
MOST_HEAD = 1 << 16
MOST_WAITING = 256


@dataclass
class Connection:
    """A connection, what it has sent, and when its time is up."""

    socket: socket.socket
    address: Any
    until: float = field(default_factory=lambda: time.monotonic() + SECONDS_TO_ASK)
    received: bytes = b""

    @property
    def has_asked(self) -> bool:
        """Whether the head of its request is whole."""
        return b"\r\n\r\n" in self.received or b"\n\n" in self.received


class Connections:
    """Those of a listener: `asked` have asked, and `silent` haven't yet."""

    def __init__(self, listener: socket.socket) -> None:
        self.listener = listener
        self.silent: dict[int, Connection] = {}
        self.asked: list[Connection] = []
        self.selector = selectors.DefaultSelector()
        listener.setblocking(False)
        self.selector.register(listener, selectors.EVENT_READ)

    def hear(self, seconds: float) -> None:
        """Waits until one says something, for so many seconds at most."""
        for key, _ in self.selector.select(seconds):
            if key.fileobj is self.listener:
                self.accept()
            elif key.data.socket.fileno() in self.silent:
                self.take(key.data)
        now = time.monotonic()
        for one in [one for one in self.silent.values() if one.until < now]:
            self.drop(one)

    def accept(self) -> None:
        try:
            found, address = self.listener.accept()
        except OSError:
            return
        found.setblocking(False)
        if len(self.silent) >= MOST_WAITING:
            self.drop(next(iter(self.silent.values())))
        one = self.silent[found.fileno()] = Connection(found, address)
        self.selector.register(found, selectors.EVENT_READ, one)

    def take(self, one: Connection) -> None:
        try:
            part = one.socket.recv(MOST_HEAD + 1 - len(one.received))
        except BlockingIOError:
            return
        except OSError:
            part = b""
        one.received += part
        # What comes with a head may be the beginning of a long call.
        if one.has_asked:
            self.forget(one)
            self.asked.append(one)
        elif not part or len(one.received) > MOST_HEAD:
            self.drop(one)

    def forget(self, one: Connection) -> None:
        del self.silent[one.socket.fileno()]
        self.selector.unregister(one.socket)

    def drop(self, one: Connection) -> None:
        self.forget(one)
        one.socket.close()

    def close_in_child(self, own: socket.socket) -> None:
        """In a process that answers one of them: the others aren't its own. What waits is shared with the server, so
        nothing is taken away from it."""
        for one in self.all():
            if one.socket is not own:
                one.socket.close()
        self.selector.close()

    def all(self) -> Iterator[Connection]:
        yield from self.silent.values()
        yield from self.asked


class Received(io.RawIOBase):
    """What a connection sends: first what has come of it already."""

    def __init__(self, received: bytes, connection: socket.socket) -> None:
        self.received = received
        self.connection = connection

    def readable(self) -> bool:
        return True

    def readinto(self, place: Any) -> int:
        if not self.received:
            return self.connection.recv_into(place)
        count = min(len(place), len(self.received))
        place[:count] = self.received[:count]
        self.received = self.received[count:]
        return count
