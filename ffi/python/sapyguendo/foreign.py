"""The calls of libsapyguendo by ctypes, if no extension module was built. Each is made with the interpreter's lock
held, so that neither a thread, a signal handler, a garbage collection nor a fork comes into it."""
from __future__ import annotations

import ctypes
import os
import sys
import weakref
from ctypes import byref, c_bool, c_char, c_size_t, c_uint32, c_uint64, c_void_p
from typing import Any, List, Optional, Tuple

from .words import IGNORE, MOST_LINE, OPERATIONS, REASONS, REPLIES, STATUSES, Answer, Entry, Fault, Reason, Reply, Row, Starter
from .words import place, refuse, whole

if not getattr(sys, "_is_gil_enabled", lambda: True)():
    raise ImportError("sapyguendo needs an interpreter with its lock (PYTHON_GIL=1)")


def _struct(name: str, **fields: Any) -> Any:
    return type(name, (ctypes.Structure,), {"_fields_": list(fields.items())})


_STALE = 16
_Sup = _struct("_Sup", at=c_void_p, is_open=c_bool)
_Text = _struct("_Text", len=c_uint64, bytes=c_char * 40)
_Entry = _struct("_Entry", handle=c_uint64, serial=c_uint64, moment=c_uint64, number=c_uint64, operation=c_uint32, reason=c_uint32,
                 answer=c_uint32, code=c_uint32, text=_Text)
_Reply = _struct("_Reply", kind=c_uint32, code=c_uint32, number=c_uint64, next=c_uint64)
_Counts = _struct("_Counts", specs=c_uint64, active=c_uint64, supervisors=c_uint64, workers=c_uint64, stamp=c_uint64, is_down=c_bool)
_Row = _struct("_Row", number=c_uint64, status=c_uint32, arg=_Text)


def _library() -> Any:
    """The library in the folder that SAPYGUENDO_LIB names, in the module's own folder, or where the system's loader looks."""
    named, own = os.environ.get("SAPYGUENDO_LIB"), f"{os.path.dirname(__file__)}/libsapyguendo.so.0"
    try:
        return ctypes.PyDLL(f"{named}/libsapyguendo.so.0" if named else own if os.path.exists(own) else "libsapyguendo.so.0")
    except OSError as error:
        raise ImportError(f"{error}: set SAPYGUENDO_LIB to the folder of libsapyguendo.so.0 (ffi/install makes it)") from None


_LIBRARY = _library()


class Core:
    """The rules of one supervisor."""

    def _open(self, line: bytes, entries: int, start: Starter) -> None:
        self._held, self._start = _Sup(), start
        self._call("sup_open", line, c_size_t(len(line)), c_uint64(entries))
        self._end = weakref.finalize(self, _LIBRARY.sup_close, byref(self._held))

    def _call(self, name: str, *given: Any, of: Any = None) -> None:
        _check(getattr(_LIBRARY, name)(byref(self._held), *given), of)

    def close(self) -> None:
        """Gives the memory back. Every later call but this one is refused."""
        self._end()

    def start_child(self, moment: int, argument: str, /) -> Reply:
        """Enters the start of a child with this argument at a moment in seconds."""
        return self.update(Entry("start", moment, text=argument))[0]

    def exit(self, moment: int, number: int, reason: Reason, /) -> Reply:
        """Enters that the child with this number ended by itself."""
        return self.update(Entry("exit", moment, number, reason))[0]

    def retry(self, moment: int, number: int, /) -> Reply:
        """Enters that the restart of the child with this number is to be tried again."""
        return self.update(Entry("retry", moment, number))[0]

    def terminate_child(self, moment: int, number: int, /) -> Reply:
        """Enters the termination of the child with this number, which is listed no more."""
        return self.update(Entry("terminate", moment, number))[0]

    def stop(self, moment: int, /) -> Reply:
        """Enters that the supervisor stops, and all children end."""
        return self.update(Entry("stop", moment))[0]

    def update(self, entry: Entry, /) -> Tuple[Reply, Entry]:
        """Enters an operation, with what the start function answers, and returns the reply and the entry. The start function is
        asked at most once."""
        c, reply, begun = _spelled(entry), _Reply(), None
        while True:
            c.serial = self._count()[4]
            argument = self._asked(c)
            if argument is not None and begun is None:
                begun = self._start(argument, c.moment)
                if not isinstance(begun, Answer):
                    refuse(self._start, begun)
            answer = IGNORE if argument is None or begun is None else begun
            c.answer, c.code = whole(answer.kind, "answer", 32), whole(answer.code, "code", 32)
            fault = _LIBRARY.sup_step_at(byref(self._held), byref(c), c_uint64(c.serial), byref(c_uint64()), byref(reply))
            if fault != _STALE:
                _check(fault, c)
                return _reply(reply), entry._replace(answer=answer, serial=c.serial)

    def step(self, entry: Entry, /) -> Reply:
        """Enters an entry as it is, with its answer: so a history is run again."""
        c, reply = _spelled(entry), _Reply()
        self._call("sup_step", byref(c), byref(reply), of=c)
        return _reply(reply)

    def asks(self, entry: Entry, /) -> Optional[str]:
        """Returns the argument that the start function would be asked about, or None."""
        return self._asked(_spelled(entry))

    def child(self, number: int, /) -> Optional[Row]:
        """Returns the listed child with this number, or None if there is none or the supervisor is down."""
        row = _Row()
        self._call("sup_child", c_uint64(whole(number, "number")), byref(row))
        return _row(row) if row.status in (1, 2) else None

    def _count(self) -> Tuple[int, int, int, int, int, bool]:
        c = _Counts()
        self._call("sup_count", byref(c))
        return c.specs, c.active, c.supervisors, c.workers, c.stamp, c.is_down

    def _rows(self, index: int, most: int, left: bool) -> Optional[List[Row]]:
        """The rows from this index on, or those of `left`, at most `most` of them. None if the supervisor is down."""
        rows, row = [], _Row()
        for at in range(index, index + most):
            self._call("sup_left" if left else "sup_row", c_uint64(at), byref(row))
            if row.status == 3:
                return None
            if row.status == 0:
                break
            rows.append(_row(row))
        return rows

    def _asked(self, c: Any) -> Optional[str]:
        asked = _Text()
        self._call("sup_asks", byref(c), byref(asked), of=c)
        return _told(asked) if asked.len else None


def write_entry(entry: Entry) -> str:
    c, room, size = _spelled(entry), ctypes.create_string_buffer(MOST_LINE), c_uint64()
    _check(_LIBRARY.sup_write_entry(byref(c), room, c_size_t(MOST_LINE), byref(size)), c)
    return room.raw[: size.value].decode("ascii")


def read_entry(line: str) -> Entry:
    given, c = _bytes(line, "line"), _Entry()
    if _LIBRARY.sup_read_entry(given, c_size_t(len(given)), byref(c), byref(c_uint64())):
        raise Fault(9, "line")
    reason = Reason(REASONS[c.reason], _told(c.text)) if c.operation == 1 else None
    argument = _told(c.text) if c.operation == 0 else ""
    return Entry(OPERATIONS[c.operation], c.moment, c.number, reason, argument, Answer(c.answer, c.code), c.handle, c.serial)


def version() -> int:
    """Returns the version of the library: 100 is 0.1.0."""
    return int(_LIBRARY.sup_version())


def _check(fault: int, c: Any = None) -> None:
    """Refuses a fault. If the library refused an entry whose words and numbers are in range, its text or its answer was wrong."""
    if fault:
        field = "" if c is None or fault != 9 else "answer" if c.answer > 2 else {0: "text", 1: "reason"}.get(c.operation, "")
        raise Fault(fault, field)


def _told(text: Any) -> str:
    return str(text.bytes[: text.len], "ascii")


def _reply(reply: Any) -> Reply:
    return Reply(REPLIES[reply.kind], reply.number, reply.next, reply.code)


def _row(row: Any) -> Row:
    return Row(row.number, STATUSES[row.status - 1], _told(row.arg))


def _bytes(text: Any, field: str) -> bytes:
    try:
        return bytes(text.encode("ascii"))
    except (AttributeError, UnicodeEncodeError):
        raise Fault(9, field) from None


def _spelled(e: Any) -> Any:
    if not isinstance(e, Entry):
        raise TypeError(f"{e!r} is no Entry")
    is_exit = e.operation == "exit"
    for part, kind, field in ((e.reason, Reason, "reason"), (e.answer, Answer, "answer")):
        if not isinstance(part, kind) and (is_exit or kind is Answer):
            raise Fault(9, field)
    text, field = (e.reason.text, "reason") if is_exit and e.reason else (e.text, "text")
    reason = place(e.reason.kind, REASONS, "reason") if is_exit and e.reason else 0
    numbers = [whole(getattr(e, it), it) for it in ("handle", "serial", "moment", "number")]
    answer = whole(e.answer.kind, "answer", 32), whole(e.answer.code, "code", 32)
    given = _bytes(text, field)
    return _Entry(*numbers, place(e.operation, OPERATIONS, "operation"), reason, *answer, (len(given), given[:40]))
