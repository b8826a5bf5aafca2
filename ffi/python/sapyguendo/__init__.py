"""A supervisor of one thread, by the rules of Erlang/OTP's strategy simple_one_for_one, over libsapyguendo, which is proved.

    >>> from sapyguendo import Reason, Supervisor, Template
    >>> sup = Supervisor(Template("transient", max=1000))
    >>> sup.start_child(0, "session-17")
    Reply(kind='started', number=1, next=0, code=0)
    >>> sup.exit(1, 1, Reason.of(ValueError("no such session")))
    Reply(kind='restarted', number=1, next=2, code=0)

`Supervisor` decides, and its caller begins and ends the children. `TaskSupervisor` does all of it with asyncio's tasks, and
`ThreadSupervisor` with threads. Threads may share each, if the interpreter has its lock. docs/PYTHON.md has more examples.
"""
from .words import AUTOS, FAULTS, IGNORE, KINDS, MOST_ENTRIES, MOST_LINE, OPERATIONS, REASONS, REPLIES, RESTARTS, RUNNING, STATUSES
from .words import Answer, Counts, Entry, Fault, Reason, Reply, Row, Template, failed, version
from .ready import Child, GaveUp, NotStarted, TaskSupervisor, ThreadSupervisor
from .rules import Supervisor

__all__ = ["Answer", "Child", "Counts", "Entry", "Fault", "GaveUp", "NotStarted", "Reason", "Reply", "Row", "Supervisor"]
__all__ += ["TaskSupervisor", "Template", "ThreadSupervisor", "failed", "version"]
__all__ += ["AUTOS", "FAULTS", "IGNORE", "KINDS", "MOST_ENTRIES", "MOST_LINE", "OPERATIONS", "REASONS", "REPLIES", "RESTARTS"]
__all__ += ["RUNNING", "STATUSES"]
