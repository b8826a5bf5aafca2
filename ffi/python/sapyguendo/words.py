"""What is entered and what is replied, as plain tuples; the exception of a call that was refused; and what calls the library."""
from __future__ import annotations

import asyncio
import inspect
import os
import re
from typing import TYPE_CHECKING, Any, Callable, Iterator, NamedTuple, NoReturn, Optional, Sequence, Tuple

MOST_ENTRIES = 1 << 62
MOST_LINE = 160
RESTARTS = ("permanent", "transient", "temporary")
KINDS = ("worker", "supervisor")
AUTOS = ("never", "any", "all")
OPERATIONS = ("start", "exit", "retry", "terminate", "stop")
REASONS = ("normal", "shutdown", "shutdown_with", "other")
REPLIES = ("started", "undefined", "start_failed", "full", "removed", "shut_down", "restarted", "restarting", "ignored", "stray")
REPLIES += ("not_found", "ended", "stopped", "gave_up", "down")
STATUSES = ("running", "restarting")
FAULTS = {1: "out of memory", 2: "the history is full", 7: "no template has these parts", 9: "it spells no entry",
          12: "the line is too long", 15: "the supervisor is closed"}
VERSION = 200
_MOST = {"intensity": (0, 1000), "period": (1, 86400), "max": (1, 65536), "entries": (1, MOST_ENTRIES)}
_WORDS = "({}) ({})".format("|".join(RESTARTS), "|".join(KINDS)) + " (0|[1-9][0-9]*)" * 3
_FIRST = re.compile(f"history ([12]) {_WORDS}(?: (plain|significant) ({'|'.join(AUTOS)}))?\n")


class Fault(Exception):
    """A call was refused, and nothing has changed. Its `number` is that of docs/FORMATS.md, and its `field` names what was wrong, if
    it was one part of what was given."""

    def __init__(self, number: int, field: str = "") -> None:
        super().__init__(number, field)
        self.number, self.field = number, field

    def __str__(self) -> str:
        return f"fault {self.number}: {FAULTS.get(self.number, 'unknown')}" + f": {self.field}" * bool(self.field)


class Template(NamedTuple):
    """The template of which all children are instances: at most `intensity` restarts, 0 to 1,000, within `period` seconds, 1 to 86,400,
    and at most `max` children at a time, 1 to 65,536, for which memory is taken at once. There are at most `entries` operations."""

    restart: str = "permanent"
    kind: str = "worker"
    intensity: int = 1
    period: int = 5
    max: int = 65536
    significant: bool = False
    auto_shutdown: str = "never"
    entries: int = MOST_ENTRIES

    def line(self) -> str:
        """Returns the first line of a history text of this template."""
        for field, known in (("restart", RESTARTS), ("kind", KINDS), ("auto_shutdown", AUTOS)):
            place(getattr(self, field), known, field, 7)
        for field, (least, most) in _MOST.items():
            if type(getattr(self, field)) is not int or not least <= getattr(self, field) <= most:
                raise Fault(7, field)
        if self.significant and (self.restart == "permanent" or self.auto_shutdown == "never"):
            raise Fault(7, "significant")
        mark = "significant" if self.significant else "plain"
        return "history 2 {0} {1} {2} {3} {4} {5} {6}\n".format(*self[:5], mark, self.auto_shutdown)

    @staticmethod
    def read(line: str) -> Template:
        """Returns the template of the first line of a history text."""
        found = _FIRST.fullmatch(line)
        if not found or (found[1] == "2") != bool(found[7]):
            raise Fault(9, "line 1")
        template = Template(found[2], found[3], int(found[4]), int(found[5]), int(found[6]), found[7] == "significant", found[8] or "never")
        template.line()
        return template


class Reason(NamedTuple):
    """Why a child ended."""

    kind: str
    text: str = ""

    @staticmethod
    def normal() -> Reason:
        """Returns the reason of a child whose work is done."""
        return Reason("normal")

    @staticmethod
    def shutdown(term: Optional[str] = None) -> Reason:
        """Returns the reason of a child that was asked to end, which is no crash."""
        return Reason("shutdown") if term is None else Reason("shutdown_with", term)

    @staticmethod
    def other(word: str) -> Reason:
        """Returns a crash with a word of 1 to 40 visible characters."""
        return Reason("other", word)

    @staticmethod
    def of(error: Optional[BaseException]) -> Reason:
        """Returns the reason of an exception: without one it is normal, a cancellation is a shutdown, and any other a crash with the first
        40 characters of its type and message, in which each that no text may have is a `_`."""
        if error is None:
            return Reason("normal")
        if isinstance(error, asyncio.CancelledError):
            return Reason("shutdown_with", "cancelled")
        try:
            message = f"{type(error).__name__}: {error}" if str(error) else type(error).__name__
        except Exception:
            message = type(error).__name__
        word = re.sub("[^!-~]", "_", message[:40])
        return Reason("other", word if word not in ("normal", "shutdown") and not word.startswith("shutdown:") else f"crash:{word}"[:40])


class Answer(NamedTuple):
    """What a start function answers: RUNNING, IGNORE or failed(code)."""

    kind: int
    code: int = 0


RUNNING = Answer(0)
IGNORE = Answer(1)
Starter = Callable[[str, int], Answer]


def failed(code: int) -> Answer:
    """Returns the answer that the start failed, with a code of 32 bits."""
    return Answer(2, code)


class Entry(NamedTuple):
    """An entry of a history. `text` is the argument of a start."""

    operation: str
    moment: int
    number: int = 0
    reason: Optional[Reason] = None
    text: str = ""
    answer: Answer = IGNORE
    handle: int = 0
    serial: int = 0

    def line(self) -> str:
        """Returns the entry as a line of a history text, with its line feed."""
        return write_entry(self)

    @staticmethod
    def read(text: str) -> Tuple[Entry, str]:
        """Returns the entry of the first line of a text, and the text after that line. For many entries use `read_all`."""
        end = text.find("\n") + 1
        return read_entry(text[:end]), text[end:]

    @staticmethod
    def read_all(text: str) -> Iterator[Entry]:
        """Returns the entries of a text's lines one by one, in a time that grows with the text's length alone."""
        return map(read_entry, text.splitlines(True))


class Reply(NamedTuple):
    """What a supervisor replies: `number` and `next` are of children, `code` is the start function's."""

    kind: str
    number: int = 0
    next: int = 0
    code: int = 0


class Counts(NamedTuple):
    """How many children there are, those that wait for another try included, and how many of them run."""

    specs: int
    active: int
    supervisors: int
    workers: int


class Row(NamedTuple):
    """A listed child. Its status is 'running', or 'restarting' while it waits for another try."""

    number: int
    status: str
    arg: str


def whole(value: Any, field: str, bits: int = 64) -> int:
    """A number that the library can be given: ctypes would cut off what is too large."""
    if type(value) is not int or not 0 <= value < 1 << bits:
        raise Fault(9, field)
    return value


def place(word: Any, words: Sequence[str], field: str, fault: int = 9) -> int:
    if word not in words:
        raise Fault(fault, field)
    return words.index(word)


def refuse(start: Any, answer: Any) -> NoReturn:
    """Refuses what a start function answered that is no answer."""
    if inspect.iscoroutine(answer):
        answer.close()
    raise TypeError(f"the start function {start!r} must answer RUNNING, IGNORE or failed(code), and not {answer!r}")


# What calls the library, and needs what is above: the extension module where it was built, and else ctypes.
FOR_EXTENSION = (Fault, Entry, Reason, Answer, Reply, Row, RUNNING, IGNORE, refuse, OPERATIONS, REASONS, REPLIES, STATUSES)
if TYPE_CHECKING or os.environ.get("SAPYGUENDO_CTYPES"):
    from .foreign import Core, read_entry, version, write_entry
else:
    try:
        from ._fast import Core, read_entry, version, write_entry
    except ModuleNotFoundError:
        from .foreign import Core, read_entry, version, write_entry
if version() != VERSION:
    raise ImportError(f"the library that {Core.__module__} found is of version {version()}, and the module of {VERSION}")
