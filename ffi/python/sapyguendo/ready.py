"""Supervisors that begin, restart and end their children: tasks of asyncio, or threads."""
from __future__ import annotations

import asyncio
import contextvars
import functools
import inspect
import logging
import os
import threading
import time
import weakref
from typing import Any, Callable, Dict, Iterator, List, Optional, Set, Type

from .rules import Supervisor
from .words import RUNNING, Answer, Entry, Fault, Reason, Reply, Template, failed

_LOG = logging.getLogger("sapyguendo")


class GaveUp(Exception):
    """There were more restarts than the template allows, so all children have ended. Its cause is what the last crash raised."""

    def __init__(self, number: int, argument: str, reason: Reason) -> None:
        super().__init__(number, argument, reason)
        self.number, self.argument, self.reason = number, argument, reason

    def __str__(self) -> str:
        return f"child {self.number}, {self.argument}, was the last to end: {self.reason.text or self.reason.kind}"


class NotStarted(Exception):
    """No child was started. The kind of the reply says why: 'full', 'start_failed', 'undefined' (it was ignored) or 'down'."""

    def __init__(self, argument: str, reply: Reply) -> None:
        super().__init__(argument, reply)
        self.argument, self.reply = argument, reply

    def __str__(self) -> str:
        return f"{self.argument}: {self.reply.kind}"


class Child:
    """A child. `number` is that under which it is listed now, and `run` the task or thread that runs it, or None while it waits for another
    try and after its end. `error` is what ended it last."""

    def __init__(self, argument: str, call: Callable[..., Any]) -> None:
        self.number, self.argument, self.call, self.context = 0, argument, call, contextvars.copy_context()
        self.run: Any = None
        self.begun: Any = None
        self.error: Optional[BaseException] = None

    def __repr__(self) -> str:
        return f"<Child {self.number} {self.argument}: {self.run!r}>"


class Ready:
    """What both kinds of supervisors share: children by number, and what is done after each reply."""

    # What each kind does in its way: begin a child, ask one to end, and wake those that wait for the end of all.
    _begin: Callable[[Child], Any]
    _ask: Callable[[Any], None]
    _wake: Callable[[], None]

    def __init__(self, template: Template, body: Callable[..., Any], *, retry_after: float = 1.0, timeout: Optional[float] = 5.0,
                 history: Callable[[str], Any] = str, clock: Callable[[], float] = time.monotonic) -> None:
        self._body, self._retry_after, self._timeout, self._history, self._clock = body, retry_after, timeout, history, clock
        self._rules, self._from = Supervisor(template, self._asked), clock()
        self._children: Dict[int, Child] = {}
        self._alive: Set[Any] = set()  # (all tasks or threads that have not ended)
        self._asking: List[Child] = []
        self._cause: Optional[BaseException] = None
        self._is_over = False
        history(template.line())

    def __len__(self) -> int:
        return len(self._children)

    def __iter__(self) -> Iterator[Child]:
        return iter(self.children())

    def __contains__(self, number: object) -> bool:
        return number in self._children

    def __repr__(self) -> str:
        return f"<{type(self).__name__} {self._rules.template.restart}: {'down' if self._is_over else f'{len(self)} children'}>"

    def children(self) -> List[Child]:
        """Returns the children in ascending order of number, with those that wait for another try."""
        return list(self._children.values())

    def is_down(self) -> bool:
        """Returns whether the supervisor gave up, was stopped, went down with a significant child or has failed."""
        return self._is_over

    def terminate(self, number: int) -> bool:
        """Asks the child with this number to end, and returns whether there was one. It is not restarted."""
        child = self._children.get(number)
        return child is not None and self._enter("terminate", child).kind == "ended"

    def stop(self) -> None:
        """Asks all children to end, and starts no more."""
        if not self._is_over:
            self._enter("stop", Child("", self._body))

    def _add(self, argument: str, call: Callable[..., Any]) -> Child:
        child = Child(argument, call)
        reply = Reply("down") if self._is_over else self._enter("start", child)
        if reply.kind != "started":
            raise NotStarted(argument, reply) from child.error
        return child

    def _enter(self, operation: str, child: Child, reason: Optional[Reason] = None) -> Reply:
        """Enters an operation of a child, and does what the reply asks for. If an end can't be entered, the supervisor goes down."""
        entry, reply = Entry(operation, int(self._clock() - self._from), child.number, reason, child.argument), Reply("refused")
        self._asking.append(child)
        try:
            reply, entry = self._rules.update(entry)
            self._follow(child, reply, reason)
            self._history(entry.line())
        except Exception as error:
            if reply.kind == "refused" and operation in ("start", "terminate"):
                raise
            self._go_down(error)
        finally:
            self._asking.pop()
            begun, child.begun = child.begun, None
            if begun is not None:
                self._ask(begun)  # (the rules have no child for it)
        return reply

    def _asked(self, argument: str, moment: int) -> Answer:
        """Begins the child whose operation is being entered."""
        child = self._asking[-1]
        try:
            begun = self._begin(child)
        except Exception as error:
            child.error, code = error, getattr(error, "errno", None)
            return failed(code if type(code) is int and 0 <= code < 1 << 32 else 0)
        if isinstance(begun, Answer):
            return begun
        self._alive.add(begun)
        child.begun = begun
        return RUNNING

    def _follow(self, child: Child, reply: Reply, reason: Optional[Reason]) -> None:
        if reply.kind in ("started", "restarted"):
            self._children.pop(child.number, None)
            child.number, child.run, child.begun = reply.next or reply.number, child.begun, None
            self._children[child.number] = child
        elif reply.kind == "restarting":
            self._later(child)
        elif reply.kind in ("removed", "ignored", "ended"):
            self._let_go([self._children.pop(child.number)])
        elif reply.kind == "gave_up":
            gave_up = GaveUp(child.number, child.argument, reason or Reason.of(child.error))
            gave_up.__cause__ = child.error
            self._go_down(gave_up)
        elif reply.kind in ("stopped", "shut_down"):
            self._go_down(None)
        self._wake()

    def _ended(self, child: Child, run: Any, error: Optional[BaseException]) -> None:
        """Enters that a child ended, if it was not asked to. An error that ends the program takes the supervisor down."""
        reply = "asked to end before"
        if child.run is run:
            child.run, child.error = None, error
            if isinstance(error, (KeyboardInterrupt, SystemExit)):
                return self._go_down(error)
            reply = self._enter("exit", child, Reason.of(error)).kind
        if error is not None and not isinstance(error, asyncio.CancelledError):
            _LOG.warning("%s crashed: %s", child.argument, reply, exc_info=error)

    def _retry(self, child: Child) -> None:
        if self._children.get(child.number) is child:
            self._enter("retry", child)

    def _later(self, child: Child) -> None:
        """Has `_retry` called later, unless the thread that ran the child does so."""

    def _go_down(self, cause: Optional[BaseException]) -> None:
        self._is_over, self._cause = True, self._cause or cause
        children, self._children = self.children(), {}
        self._let_go(children)
        self._wake()

    def _let_go(self, children: List[Child]) -> None:
        for child in children:
            run, child.run = child.run, None
            if run is not None:
                self._ask(run)

    def _end(self) -> None:
        """Closes the supervisor, and raises what took it down."""
        for run in self._alive:
            _LOG.error("%r does not end though it was asked to", run)
        self._alive = set()
        self._wake()
        self._rules.close()
        if self._cause is not None:
            raise self._cause


class TaskSupervisor(Ready):
    """A supervisor whose children are tasks of asyncio, each of which awaits `body(argument, ..)`. It is used by `async with`, at whose end
    all are cancelled. A task that raises has crashed, and is begun again by the rules. If `body` raises before there is a coroutine, the start
    failed: a restart is tried again after `retry_after` seconds. One that ignores its cancellation for `timeout` seconds is cancelled again,
    then logged and left alone. If the supervisor gives up, the block is cancelled, and ends with GaveUp from the last crash. `history` is
    called with each line of the history text."""

    _parent: Optional[asyncio.Task[Any]] = None
    _is_leaving = _has_cancelled = False

    async def __aenter__(self) -> TaskSupervisor:
        self._loop, self._parent, self._process = asyncio.get_running_loop(), asyncio.current_task(), os.getpid()
        self._is_idle = asyncio.Event()
        self._wake()
        return self

    async def __aexit__(self, kind: Optional[Type[BaseException]], error: Optional[BaseException], trace: Any) -> None:
        self._is_leaving = True
        if kind is GeneratorExit or self._loop.is_closed() or self._process != os.getpid():
            self._is_over, self._children = True, {}
            return self._rules.close()  # (nothing can be awaited here)
        if self._has_cancelled:
            getattr(self._parent, "uncancel", int)()
        self.stop()
        cancelled = await self._all_ended()
        for task in self._alive:
            task.cancel()
        cancelled = await self._all_ended() or cancelled
        self._end()
        if cancelled is not None and error is None:
            raise cancelled

    async def _all_ended(self) -> Optional[asyncio.CancelledError]:
        """Waits until all tasks have ended, for `timeout` seconds at most. A cancellation that comes meanwhile is returned."""
        cancelled, end = None, None if self._timeout is None else self._loop.time() + self._timeout
        while self._alive and (end is None or end > self._loop.time()):
            try:
                await asyncio.wait(self._alive, timeout=None if end is None else end - self._loop.time())
            except asyncio.CancelledError as error:
                cancelled = error
        return cancelled

    def _check(self) -> None:
        if self._parent is None or asyncio.get_running_loop() is not self._loop:
            raise RuntimeError(f"{self!r} was not entered in this event loop")

    async def start(self, argument: str, *args: Any, **named: Any) -> Child:
        """Starts a child, and returns it without waiting for anything. Raises NotStarted."""
        self._check()
        return self._add(argument, functools.partial(self._body, argument, *args, **named))

    async def join(self) -> None:
        """Waits until there are no children and their tasks have ended. Raises what took the supervisor down, such as GaveUp."""
        self._check()
        await self._is_idle.wait()
        if self._cause is not None:
            raise self._cause

    def _begin(self, child: Child) -> Any:
        context = child.context.copy()
        body = context.run(child.call)
        if isinstance(body, Answer):
            return body
        task = context.run(functools.partial(self._loop.create_task, body, name=child.argument))
        task.add_done_callback(functools.partial(self._done, child))
        return task

    def _done(self, child: Child, task: asyncio.Task[Any]) -> None:
        self._alive.discard(task)
        if task.cancelled() and getattr(self._parent, "cancelling", int)():
            self.stop()  # (all tasks of the program are cancelled: that is no crash)
        self._ended(child, task, asyncio.CancelledError() if task.cancelled() else task.exception())
        self._wake()

    def _later(self, child: Child) -> None:
        self._loop.call_later(self._retry_after, self._retry, child)

    def _ask(self, run: asyncio.Task[Any]) -> None:
        if not self._loop.is_closed():
            run.cancel()

    def _wake(self) -> None:
        (self._is_idle.clear if self._children or self._alive else self._is_idle.set)()

    def _go_down(self, cause: Optional[BaseException]) -> None:
        super()._go_down(cause)
        if cause is not None and self._parent is not None and not self._is_leaving and not self._parent.done():
            self._has_cancelled = self._parent.cancel()


class ThreadSupervisor(Ready):
    """A supervisor whose children are threads, each of which runs `body(argument, stop, ..)` and ends soon after the event `stop` is set. It
    is used by `with`, from any thread, and does for threads what a TaskSupervisor does for tasks. A start fails if there is no thread. If the
    supervisor gave up, the block ends with GaveUp from the last crash, and so does `join`. A fork has none of its children."""

    def __init__(self, template: Template, body: Callable[..., Any], **options: Any) -> None:
        if inspect.iscoroutinefunction(body):
            raise TypeError(f"{body!r} is async: a TaskSupervisor begins it")
        self._changed = threading.Condition()  # (whoever has it may take it again)
        super().__init__(template, body, **options)
        _THREADED.add(self)

    def __enter__(self) -> ThreadSupervisor:
        return self

    def __exit__(self, *_: Any) -> None:
        self.stop()
        with self._changed:
            self._changed.wait_for(lambda: not self._alive, self._timeout)
            self._end()

    def start(self, argument: str, *args: Any, **named: Any) -> Child:
        """Starts a child, and returns it. Raises NotStarted."""
        with self._changed:
            return self._add(argument, lambda stop: self._body(argument, stop, *args, **named))

    def join(self, timeout: Optional[float] = None) -> bool:
        """Waits until there are no children and their threads have ended, for `timeout` seconds at most, and returns whether that is so.
        Raises what took the supervisor down, such as GaveUp."""
        with self._changed:
            is_idle = self._changed.wait_for(lambda: not self._children and not self._alive, timeout)
            if is_idle and self._cause is not None:
                raise self._cause
            return is_idle

    def _begin(self, child: Child) -> Any:
        thread: Any = threading.Thread(target=child.context.copy().run, args=(self._main, child), name=child.argument)
        thread.stop = threading.Event()
        thread.start()
        return thread

    def _main(self, child: Child) -> None:
        thread: Any = threading.current_thread()
        error: Optional[BaseException] = None
        try:
            child.call(thread.stop)
        except BaseException as it:
            error = None if isinstance(it, SystemExit) else it  # (so a thread ends by itself)
        with self._changed:
            self._ended(child, thread, error)
            # (the thread of a child that is to be tried again waits for it)
            while self._waits(child) and not self._changed.wait_for(lambda: not self._waits(child), self._retry_after):
                self._retry(child)
            self._alive.discard(thread)
            self._wake()

    def _waits(self, child: Child) -> bool:
        return self._children.get(child.number) is child and child.run is None

    def _enter(self, operation: str, child: Child, reason: Optional[Reason] = None) -> Reply:
        with self._changed:
            return super()._enter(operation, child, reason)

    def _ask(self, run: Any) -> None:
        run.stop.set()

    def _wake(self) -> None:
        self._changed.notify_all()


_THREADED: weakref.WeakSet[ThreadSupervisor] = weakref.WeakSet()


def _after_fork() -> None:
    """Leaves a fork without children: their threads are not in it, and one of them may have held the lock."""
    for it in list(_THREADED):
        it._changed, it._is_over, it._alive, it._children = threading.Condition(), True, set(), {}


os.register_at_fork(after_in_child=_after_fork)
