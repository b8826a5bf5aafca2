"""The supervisor of one thread, which decides and begins nothing itself."""
from __future__ import annotations

import inspect
import os
import threading
from typing import Any, Iterator, List, Optional, Tuple

from .words import RUNNING, Core, Counts, Entry, Fault, Reply, Row, Starter, Template

_PIECE = 1000  # rows that are listed at once, before other threads have a turn
# Whose turn it is to list rows, which takes many calls: a thread may come in again, and a fork begins with a turn of its own.
_turn = [threading.RLock()]
os.register_at_fork(after_in_child=lambda: _turn.__setitem__(0, threading.RLock()))


class Supervisor(Core):
    """A supervisor. `start` starts a child with an argument at a moment in seconds, if the rules ask for it, and answers RUNNING, IGNORE or
    failed(code). It may use the supervisor. If others have entered something meanwhile, the rules are asked again: what it has begun is
    kept if the reply is 'started' or 'restarted', and else the caller's to end. It iterates over the rows of the listed children."""

    def __init__(self, template: Template, start: Starter = lambda argument, moment: RUNNING) -> None:
        if inspect.iscoroutinefunction(start):
            raise TypeError(f"the start function {start!r} is async: it must answer RUNNING, IGNORE or failed(code)")
        self.template, self._listing = template, object()
        self._open(template.line().encode("ascii"), template.entries, start)

    @classmethod
    def replay(cls, text: str, start: Starter = lambda argument, moment: RUNNING) -> Tuple[Supervisor, List[Reply]]:
        """Returns a supervisor after the history of this text, and the reply to each of its entries, as `supload replay` answers them.
        A fault names the line."""
        end = text.find("\n") + 1
        supervisor = cls(Template.read(text[:end]), start)
        replies: List[Reply] = []
        try:
            for entry in Entry.read_all(text[end:]):
                replies.append(supervisor.step(entry))
        except Fault as fault:
            raise Fault(fault.number, f"line {len(replies) + 2}") from None
        return supervisor, replies

    def __enter__(self) -> Supervisor:
        return self

    def __exit__(self, *_: Any) -> None:
        self.close()

    def __len__(self) -> int:
        return sum(self._count()[2:4])

    def __iter__(self) -> Iterator[Row]:
        return iter(self.which() or ())

    def __contains__(self, number: object) -> bool:
        return type(number) is int and 0 <= number < 1 << 64 and self.child(number) is not None

    def __repr__(self) -> str:
        try:
            state = "down" if self.is_down() else f"{len(self)} children"
        except Fault:
            state = "closed"
        return f"<{type(self).__name__} {self.template.restart}: {state}>"

    def counts(self) -> Optional[Counts]:
        """Returns how many children there are, or None if the supervisor is down."""
        specs, active, supervisors, workers, _, is_down = self._count()
        return None if is_down else Counts(specs, active, supervisors, workers)

    def stamp(self) -> int:
        """Returns how many entries there were."""
        return self._count()[4]

    def is_down(self) -> bool:
        """Returns whether the supervisor gave up, was stopped or went down with a significant child."""
        return self._count()[5]

    def which(self) -> Optional[List[Row]]:
        """Returns the listed children in ascending order of number, or None if the supervisor is down. They are those of one moment.
        Other threads may use the supervisor meanwhile; only one that lists them as well waits."""
        with _turn[0]:
            while True:  # (again, if a signal handler or a garbage collection came between two rows, and listed them anew)
                mine = self._listing = object()
                rows: List[Row] = []
                while mine is self._listing:
                    some = self._rows(len(rows), _PIECE, False)
                    if mine is self._listing:
                        if some is None:
                            return None
                        rows += some
                        if len(some) < _PIECE:
                            return rows

    def left(self) -> List[Row]:
        """Returns the children that were listed before the entry that took the supervisor down: the caller ends those that run. There
        are none while it is up, or if that entry came by `step`."""
        return self._rows(0, 1 << 17, True) or []
