#!/usr/bin/env python3
"""A second recount: answers scripts and histories in plain Python. It is written from docs/SUPERVISOR.md and
docs/FORMATS.md alone, and shares nothing with the program. A text of more than 16,777,216 bytes is not its affair.

usage: tools/partners/recount.py script|replay < TEXT

It writes the replies and, on standard error, the fault, and ends with the exit status that the formats name.
"""
import re
import sys

MOST = 18446744073709551615
MOST_CODE = 4294967295
NUMBER = re.compile(rb"0|[1-9][0-9]{0,19}")
TEXT = re.compile(rb"[\x21-\x7e]{1,40}")
RESTARTS = (b"permanent", b"transient", b"temporary")
KINDS = (b"worker", b"supervisor")
MARKS = (b"significant", b"plain")
AUTOS = (b"never", b"any", b"all")
IDENTIFIER_LINES = (b"terminate_id", b"delete_child", b"restart_child")


class Bad(Exception):
    """A line that the format does not have."""


class Fault(Exception):
    """A fault: its number and its line."""


# Tokens


def number(token):
    if not NUMBER.fullmatch(token) or int(token) > MOST:
        raise Bad
    return int(token)


def code(token):
    if number(token) > MOST_CODE:
        raise Bad
    return int(token)


def text(token):
    if not TEXT.fullmatch(token):
        raise Bad
    return token


def reason(token):
    """The reason as it is; what follows `shutdown:` is a text of its own."""
    text(token[len(b"shutdown:") :] if token.startswith(b"shutdown:") else token)
    return token


def one_of(words, token):
    if token not in words:
        raise Bad
    return token


def fields(tokens, count):
    if len(tokens) != count:
        raise Bad
    return tokens


# The supervisor


class Template:
    """The one child specification, with the supervisor's flags and limits."""

    def __init__(self, tokens):
        """Takes five fields or seven; five mean plain and never."""
        if len(tokens) == 5:
            tokens = [*tokens, b"plain", b"never"]
        restart, kind, intensity, period, most, mark, auto = fields(tokens, 7)
        self.restart, self.kind = one_of(RESTARTS, restart), one_of(KINDS, kind)
        self.intensity, self.period, self.max = number(intensity), number(period), number(most)
        self.significant = one_of(MARKS, mark) == b"significant"
        self.auto = one_of(AUTOS, auto)

    def can_be(self):
        in_range = self.intensity <= 1000 and 1 <= self.period <= 86400 and 1 <= self.max <= 65536
        return in_range and not (self.significant and (self.auto == b"never" or self.restart == b"permanent"))

    def restarts_after(self, why):
        if self.restart == b"permanent":
            return True
        is_clean = why in (b"normal", b"shutdown") or why.startswith(b"shutdown:")
        return self.restart == b"transient" and not is_clean


class Supervisor:
    """A supervisor of one thread. A row is a list: whether it is running, and its argument."""

    def __init__(self, template):
        self.template = template
        self.rows, self.made, self.attempts = {}, 0, []
        self.latest, self.is_down = 0, False

    def perform(self, operation, moment, answer):
        """The reply to an operation. The start function's answer is given by `answer`, which takes an argument."""
        self.latest = max(self.latest, moment)
        if self.is_down:
            return b"error down"
        name, *words = operation
        return getattr(self, name)(*words, answer)

    def go_down(self):
        self.rows, self.is_down = {}, True

    def stop(self, _answer):
        self.go_down()
        return b"stopped"

    def start(self, argument, answer):
        if len(self.rows) >= self.template.max:
            return b"error full"
        told = answer(argument)
        if told == b"running":
            return b"ok %d" % self.add(argument)
        if told == b"ignore":
            return b"ok undefined"
        return b"error start_failed %d" % told

    def add(self, argument):
        self.made += 1
        self.rows[self.made] = [True, argument]
        return self.made

    def exit(self, child, why, answer):
        if child not in self.rows or not self.rows[child][0]:
            return b"stray %d" % child
        if self.template.restarts_after(why):
            return self.attempt(child, answer)
        del self.rows[child]
        if self.template.significant and self.shuts_down():
            self.go_down()
            return b"shut_down %d" % child
        return b"removed %d" % child

    def shuts_down(self):
        """Whether the end of a significant child, whose row is gone, shuts down."""
        return self.template.auto == b"any" or (self.template.auto == b"all" and not self.rows)

    def retry(self, child, answer):
        if child not in self.rows or self.rows[child][0]:
            return b"error not_found"
        return self.attempt(child, answer)

    def attempt(self, child, answer):
        counting = [made for made in self.attempts if self.latest <= made + self.template.period]
        if len(counting) + 1 > self.template.intensity:
            self.go_down()
            return b"gave_up"
        self.attempts.append(self.latest)
        argument = self.rows[child][1]
        told = answer(argument)
        if told == b"running":
            del self.rows[child]
            return b"restarted %d %d" % (child, self.add(argument))
        if told == b"ignore":
            del self.rows[child]
            return b"ignored %d" % child
        self.rows[child][0] = False
        return b"restarting %d %d" % (child, told)

    def terminate(self, child, _answer):
        if child not in self.rows:
            return b"error not_found"
        del self.rows[child]
        return b"ok"

    def which(self):
        if self.is_down:
            return b"error down"
        word = {True: b"running", False: b"restarting"}
        shown = [b"child %d %s %s" % (it, word[row[0]], row[1]) for it, row in sorted(self.rows.items())]
        return b"\n".join([*shown, b"end %d" % len(shown)])

    def count(self):
        if self.is_down:
            return b"error down"
        active = sum(row[0] for row in self.rows.values())
        supervisors = len(self.rows) if self.template.kind == b"supervisor" else 0
        workers = len(self.rows) if self.template.kind == b"worker" else 0
        return b"count specs 1 active %d supervisors %d workers %d" % (active, supervisors, workers)


# Scripts


def operation_of(tokens):
    """The operation that these tokens name, with its words."""
    name, words = b"".join(tokens[:1]), tokens[1:]
    if name == b"start":
        return ("start", text(fields(words, 1)[0]))
    if name == b"exit":
        child, why = fields(words, 2)
        return ("exit", number(child), reason(why))
    if name in (b"retry", b"terminate"):
        return (name.decode(), number(fields(words, 1)[0]))
    if name == b"stop":
        fields(words, 0)
        return ("stop",)
    raise Bad


def script_answer(argument, moment):
    """What the start function of scripts answers: running, ignore or the code of a failure."""
    if argument == b"ignore":
        return b"ignore"
    if argument == b"fail":
        return 1
    try:
        mark, first, end = fields(argument.split(b":"), 3)
        fails = mark == b"gap" and number(first) <= moment < number(end)
    except Bad:
        fails = False
    return 1 if fails else b"running"


def command_reply(supervisor, line):
    """The reply to a line of a script."""
    tokens = line.split(b" ")
    if tokens in ([b"which"], [b"count"]):
        return getattr(supervisor, tokens[0].decode())()
    if tokens[0] in IDENTIFIER_LINES:
        text(fields(tokens, 2)[1])
        return b"error simple_one_for_one"
    if len(tokens) < 2:
        raise Bad
    moment = number(tokens[1])
    operation = operation_of([tokens[0], *tokens[2:]])
    return supervisor.perform(operation, moment, lambda argument: script_answer(argument, moment))


def begun(tokens, line):
    """A supervisor of the template that the header's tokens name."""
    try:
        template = Template(tokens)
    except Bad:
        raise Fault(9, line) from None
    if not template.can_be():
        raise Fault(7, line)
    return Supervisor(template)


def lines_of(whole):
    """The lines, without a further one after a last line feed."""
    lines = whole.split(b"\n")
    return lines[:-1] if lines[-1] == b"" else lines


def run_script(whole, out):
    """Appends the replies to `out`."""
    lines = lines_of(whole) or [b""]
    name, *tokens = lines[0].split(b" ")
    if name != b"sup":
        raise Fault(9, 1)
    supervisor = begun(tokens, 1)
    for place, line in enumerate(lines[1:], 2):
        try:
            out.append(command_reply(supervisor, line))
        except Bad:
            raise Fault(9, place) from None


# Histories


def entry_of(line):
    """Moment, operation and answer of an entry's line."""
    tokens = line.split(b" ")
    if len(tokens) < 5:
        raise Bad
    _handle, _serial, moment = (number(it) for it in tokens[:3])
    rest = tokens[3:]
    if rest[-1] in (b"running", b"ignore"):
        return moment, operation_of(rest[:-1]), rest[-1]
    if rest[-2] != b"failed":
        raise Bad
    return moment, operation_of(rest[:-2]), code(rest[-1])


def replay(whole, out):
    """Appends the replies to `out`, once the whole text is read."""
    *lines, left = whole.split(b"\n")
    if not lines:
        raise Fault(9, 1)
    tokens = lines[0].split(b" ")
    if (tokens[:2], len(tokens)) not in (([b"history", b"1"], 7), ([b"history", b"2"], 9)):
        raise Fault(9, 1)
    supervisor, entries = begun(tokens[2:], 1), []
    for place, line in enumerate(lines[1:], 2):
        try:
            entries.append(entry_of(line))
        except Bad:
            raise Fault(9, place) from None
    if left:
        raise Fault(9, len(lines) + 1)
    for moment, operation, answer in entries:
        out.append(supervisor.perform(operation, moment, lambda _argument, told=answer: told))


def answered(kind, whole):
    """Standard output, standard error and exit status for a text of this kind, `script` or `replay`."""
    out, err, status = [], b"", 0
    try:
        {"script": run_script, "replay": replay}[kind](whole, out)
    except Fault as fault:
        err, status = b"fault %d line %d\n" % fault.args, 2
    return b"".join(it + b"\n" for it in out), err, status


def main(words):
    if len(words) != 1 or words[0] not in ("script", "replay"):
        print(__doc__.strip(), file=sys.stderr)
        return 2
    out, err, status = answered(words[0], sys.stdin.buffer.read())
    sys.stdout.buffer.write(out)
    sys.stderr.buffer.write(err)
    return status


if __name__ == "__main__":
    sys.exit(main(sys.argv[1:]))
