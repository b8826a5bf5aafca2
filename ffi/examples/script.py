"""Answers a script (docs/FORMATS.md) as `supload script` does, by the library: standard input to standard output, a fault to
standard error. With a file's name, it writes the history there as a history text, which `supload replay` answers likewise."""
import re
import sys

import sapyguendo
from sapyguendo import IGNORE, RUNNING, Entry, Fault, Supervisor, Template, failed

NUMBER = re.compile(r"0|[1-9][0-9]*")
TEXTS = {
    "started": "ok {0.number}",
    "undefined": "ok undefined",
    "start_failed": "error start_failed {0.code}",
    "full": "error full",
    "removed": "removed {0.number}",
    "shut_down": "shut_down {0.number}",
    "restarted": "restarted {0.number} {0.next}",
    "restarting": "restarting {0.number} {0.code}",
    "ignored": "ignored {0.number}",
    "stray": "stray {0.number}",
    "not_found": "error not_found",
    "ended": "ok",
    "stopped": "stopped",
    "gave_up": "gave_up",
    "down": "error down",
}


def number(word):
    if not NUMBER.fullmatch(word) or int(word) >= 1 << 64:
        raise Fault(9)
    return int(word)


def template(line):
    words = line.split(" ")
    plain = words[:1] == ["sup"] and len(words) == 6
    marked = words[:1] == ["sup"] and len(words) == 8 and words[6] in ("plain", "significant") and words[7] in sapyguendo.AUTOS
    if not (plain or marked) or words[1] not in sapyguendo.RESTARTS or words[2] not in sapyguendo.KINDS:
        raise Fault(9)
    limits = [number(it) for it in words[3:6]]
    return Template(words[1], words[2], *limits, *([words[6] == "significant", words[7]] if marked else []))


def start(argument, moment):
    if argument == "ignore":
        return IGNORE
    first, *bounds = argument.split(":")
    fails = argument == "fail"
    if first == "gap" and len(bounds) == 2:
        try:
            fails = number(bounds[0]) <= moment < number(bounds[1])
        except Fault:
            pass
    return failed(1) if fails else RUNNING


def operation(verb, rest):
    """The entry of an operation, which the library reads: a line `start 5 a` is the history's line `0 0 5 start a ignore`."""
    moment, space, after = rest.partition(" ")
    line = f"0 0 {moment} {verb}{space}{after} ignore\n"
    entry, unread = Entry.read(line)
    if unread:
        raise Fault(9)
    return entry


def answer(sup, line, history):
    if line == "which":
        rows = sup.which()
        if rows is None:
            return "error down\n"
        return "".join(f"child {it.number} {it.status} {it.arg}\n" for it in rows) + f"end {len(rows)}\n"
    if line == "count":
        counts = sup.counts()
        if counts is None:
            return "error down\n"
        return "count specs {0.specs} active {0.active} supervisors {0.supervisors} workers {0.workers}\n".format(counts)
    verb, space, rest = line.partition(" ")
    if not space:
        raise Fault(9)
    if verb in ("terminate_id", "delete_child", "restart_child"):
        if " " in rest:
            raise Fault(9)
        operation("start", f"0 {rest}")
        return "error simple_one_for_one\n"
    reply, entry = sup.update(operation(verb, rest))
    history.append(entry.line())
    return TEXTS[reply.kind].format(reply) + "\n"


def run(text):
    """The output, the error and the status of a script, and the text of its history."""
    lines = text.decode("latin-1").split("\n")
    if lines[-1] == "" and len(lines) > 1:
        lines.pop()
    out, history, line = [], [], 1
    try:
        made = template(lines[0])
        with Supervisor(made, start) as sup:
            history.append(made.line())
            for line, it in enumerate(lines[1:], 2):
                out.append(answer(sup, it, history))
    except Fault as fault:
        status = 2 if fault.number in (7, 9) else 4
        return "".join(out).encode(), b"fault %d line %d\n" % (fault.number, line), status, "".join(history)
    return "".join(out).encode(), b"", 0, "".join(history)


def main(words):
    out, err, status, history = run(sys.stdin.buffer.read())
    if len(words) == 1:
        with open(words[0], "w", encoding="ascii") as it:
            it.write(history)
    sys.stdout.buffer.write(out)
    sys.stdout.flush()
    sys.stderr.buffer.write(err)
    return status


if __name__ == "__main__":
    sys.exit(main(sys.argv[1:]))
