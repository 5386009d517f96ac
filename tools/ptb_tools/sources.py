"""The files with listings, as they are read: in turn, with progress, and until Ctrl-C."""

from __future__ import annotations

import select
import signal
from typing import BinaryIO, Callable, Optional

SECONDS_OF_A_WAIT = 0.5


class Interrupt:
    """Ctrl-C within a `with` block: it ends what is read, and not what is done with it.

    It sets `came`. While `waiting` is set, it also raises KeyboardInterrupt. If Ctrl-C was ignored
    before, it is still.
    """

    def __init__(self) -> None:
        self.came = False
        self.waiting = False
        self._before = signal.getsignal(signal.SIGINT)

    def __enter__(self) -> Interrupt:
        if self._before is not signal.SIG_IGN:
            signal.signal(signal.SIGINT, self._note)
        return self

    def __exit__(self, *_: object) -> None:
        signal.signal(signal.SIGINT, self._before)

    def _note(self, *_: object) -> None:
        self.came = True
        if self.waiting:
            self.waiting = False
            raise KeyboardInterrupt


class Source:
    """A file that is read, until Ctrl-C. `tick`, if there is one, is called now and then."""

    def __init__(self, file: BinaryIO, interrupt: Interrupt, tick: Optional[Callable[[], None]]) -> None:
        self._file = file
        self._interrupt = interrupt
        self._tick = tick

    def read(self, size: int) -> bytes:
        """At most so many bytes; none at the end, or once Ctrl-C came."""
        interrupt = self._interrupt
        try:
            interrupt.waiting = True
            data = b"" if interrupt.came else self._next_bytes(size)
            interrupt.waiting = False
        except KeyboardInterrupt:
            return b""
        return data

    def _next_bytes(self, size: int) -> bytes:
        """At most so many bytes, once there are some; none at the end."""
        if self._tick is not None:
            self._wait(self._tick)
        return self._file.read1(size)

    def _wait(self, tick: Callable[[], None]) -> None:
        """Waits until there are bytes, or the end."""
        tick()
        while not select.select([self._file], [], [], SECONDS_OF_A_WAIT)[0]:
            tick()


class Peeked:
    """A source whose first bytes can be looked at before they are read."""

    def __init__(self, read: Callable[[int], bytes]) -> None:
        self._read = read
        self._held = b""
        self._ended = False

    def begins(self, text: bytes) -> bool:
        """Whether these bytes come next."""
        while len(self._held) < len(text) and not self._ended:
            piece = self._read(len(text))
            self._ended = not piece
            self._held += piece
        return self._held.startswith(text)

    def read(self, size: int) -> bytes:
        """At most so many bytes, or those that were looked at; none at the end."""
        held, self._held = self._held, b""
        return held if held or self._ended else self._read(size)

    def read_all(self, size: int) -> bytes:
        """All bytes, which are read in pieces of at most so many."""
        return b"".join(iter(lambda: self.read(size), b""))
