#!/usr/bin/env python3
"""Checks what the threads of a round over one desk recorded (desk/lines.rt.txt writes it): that there is one order of all
updates in which each reply, each query, each ticket and each front can be, and that the desk's journal is the text of that
order. The replies are those of the supervisor in recount.py.

usage: tools/partners/desk_checker.py < RECORD

It writes the first violation, and ends with status 1; with 0 if there is none; with 2 if this is no record.
"""
import collections
import re
import sys

sys.dont_write_bytecode = True
import recount

FULL = "fault 2"
HEAD = re.compile(r"(\d+)\.(\d+) (\d+) (\d+) (\d+) (\d+)")

Update = collections.namedtuple("Update", "place moment operation reply call")


class Violation(Exception):
    """A rule that does not hold, what is wrong, and the calls concerned."""

    def __init__(self, rule, says, *calls):
        super().__init__(rule, says)
        self.rule, self.says, self.calls = rule, says, calls

    def __str__(self):
        return "\n".join([f"{self.rule}: {self.says}", *(f"    {it.line()}" for it in self.calls)])


class Broken(Exception):
    """A text that is no record."""


class Call:
    """A call of a thread: by whom, when it was called and had returned, the front before and after, what was asked for, the
    stamp of its ticket, if it has one, and what was answered. And in which process, if one continues from another."""

    process = 0

    def __init__(self, line):
        head, what, stamp, answer = line.split(" | ")
        found = HEAD.fullmatch(head)
        if not found:
            raise ValueError(line)
        numbers = [int(it) for it in found.groups()]
        self.thread, self.asker = numbers[:2]
        self.called, self.returned, self.before, self.after = numbers[2:]
        self.words, self.stamp, self.answer = what.split(" "), None if stamp == "-" else int(stamp), answer
        self.name = self.words[0]

    def line(self):
        """The line, as it was recorded."""
        stamp = "-" if self.stamp is None else self.stamp
        return (f"{self.thread}.{self.asker} {self.called} {self.returned} {self.before} {self.after} | "
                f"{' '.join(self.words)} | {stamp} | {self.answer}")

    def who(self):
        return f"the asker {self.thread}.{self.asker}" if self.asker else f"the handle {self.thread}"

    def is_update(self):
        return self.name in ("update", "batch")

    def is_query(self):
        return self.name in ("count", "child", "which", "inspect")

    def operations(self):
        return [it for it in " ".join(self.words[2:]).split(" / ") if it]

    def replies(self):
        """The replies of an update or a batch, and its fault, or None."""
        *replies, end = self.answer.split(" / ") if self.name == "batch" else [self.answer, "done"]
        if replies and replies[-1].startswith("fault "):
            end = replies.pop()
        return replies, None if end == "done" else end


def template_of(first):
    """The template of a record's first line, and the most entries of its history."""
    words = first.split(" ")
    if (words[0], words[-2]) != ("sup", "entries"):
        raise ValueError(first)
    return recount.Template([it.encode() for it in words[1:-2]]), int(words[-1])


class Record:
    """A round: its template, the most entries of its history, its calls in the order of the lines, the history's length once the
    threads had ended, and the text of the desk's journal."""

    def __init__(self, text):
        try:
            text, _, self.journal = text.partition("journal\n")
            first, *lines, last = text.splitlines()
            end, length = last.split(" ")
            if end != "end":
                raise ValueError(last)
            self.take_head(first)
            self.calls, self.end = [Call(it) for it in lines], int(length)
            if {it.thread for it in self.calls} != {1, 2, 3, 4}:
                raise ValueError("the calls of four threads are not there")
        except (ValueError, IndexError, recount.Bad, recount.Fault) as why:
            raise Broken(f"this is no record: {why}") from None

    def take_head(self, first):
        self.head = first
        self.template, self.entries = template_of(first)

    def text(self):
        return "\n".join([self.head, *(it.line() for it in self.calls), f"end {self.end}", "journal", self.journal])

    def updates(self):
        """The updates that were entered, by place: a ticket's stamp is the place of the last that it answers."""
        found = []
        for call in self.calls:
            if call.is_update() and call.stamp is not None:
                replies, _ = call.replies()
                first = call.stamp - len(replies) + 1
                moment = int(call.words[1])
                for shift, (operation, reply) in enumerate(zip(call.operations(), replies)):
                    found.append(Update(first + shift, moment, operation, reply, call))
        return sorted(found, key=lambda it: it.place)


# The rules. Each raises a Violation, and relies on those before it.


def check(record):
    """Raises the first violation. Returns how many queries were answered at a front that lacks an update which had returned
    before: the rules allow it."""
    answers_are_whole(record)
    tickets_are_at_their_fronts(record)
    updates = record.updates()
    places_are_gapless(record, updates)
    journal_is_the_history(record, updates)
    real_time_is_kept(updates)
    tickets_have_all(record, updates)
    writes_follow_reads(record)
    fronts_go_on(record)
    nothing_is_seen_early(record, updates)
    batches_are_seen_whole(record, updates)
    answers_are_right(record, updates)
    return lacking_queries(record, updates)


def answers_are_whole(record):
    """No call has a fault, except an update where the history is full; and a batch without a fault has all its replies."""
    for call in record.calls:
        if not call.called < call.returned:
            raise Violation("clock", "a call returned before it was called", call)
        replies, fault = call.replies() if call.is_update() else ([], None)
        if fault is None and call.answer.startswith("fault "):
            fault = call.answer
        if fault == FULL and call.is_update() and call.after != record.entries:
            raise Violation("refusal", f"the history is not full: its most entries are {record.entries}", call)
        if fault and not (fault == FULL and call.is_update()):
            raise Violation("refusal", f"there is no reason for {fault}", call)
        if call.is_update() and not fault and len(replies) != len(call.operations()):
            raise Violation("answer", "there are not as many replies as operations", call)
        if call.is_update() and not fault and call.stamp is None:
            raise Violation("answer", "there is no ticket", call)


def tickets_are_at_their_fronts(record):
    """What answers with a ticket has seen what the ticket has, and no more; and what learns a ticket has then seen it."""
    for call in record.calls:
        if call.stamp is None:
            continue
        if call.after < call.stamp:
            rule = "learn" if call.name == "learn" else "ticket ahead of its front"
            raise Violation(rule, f"{call.who()} has a ticket for {call.stamp} entries, and has seen {call.after}", call)
        if call.name == "learn" and call.after != max(call.before, call.stamp):
            raise Violation("learn", f"{call.who()} has seen more than it had learnt", call)
        if call.name != "learn" and call.after != call.stamp:
            raise Violation("ticket behind its front", f"{call.who()} has a ticket for {call.stamp} entries, and has seen "
                            f"{call.after} of which the last are not its calls", call)


def places_are_gapless(record, updates):
    """The updates are at the places 1, 2, 3, .. to the length of the history, each at one of its own."""
    for place, update in enumerate(updates, 1):
        if update.place < place:
            raise Violation("two updates at one place", f"two are at place {update.place}", updates[place - 2].call, update.call)
        if update.place > place:
            raise Violation("lost update", f"none is at place {place}, and the next is this", update.call)
    if len(updates) != record.end:
        raise Violation("lost update", f"the history has {record.end} entries, and {len(updates)} were answered")


def journal_is_the_history(record, updates):
    """The journal has the template and then a line for each update, in the order of the places: its handle, how many that had
    made before, its moment and operation, and what the start function answered."""
    first, *lines = record.journal.split("\n")
    if lines[-1:] != [""]:
        raise Violation("journal", "its last line is torn")
    if first.split(" ")[2:] != record.head.split(" ")[1:-2]:
        raise Violation("journal", f"its first line is '{first}'")
    made = collections.Counter()
    for update, line in zip(updates, lines[:-1]):
        entry = f"{update.call.thread} {made[update.call.thread]} {update.moment} {update.operation} "
        if not re.fullmatch(re.escape(entry) + "(running|ignore|failed [0-9]+)", line):
            raise Violation("journal", f"the line at place {update.place} is '{line}'", update.call)
        made[update.call.thread] += 1
    if len(lines) - 1 != len(updates):
        raise Violation("journal", f"it has {len(lines) - 1} entries, and {len(updates)} were answered")


def real_time_is_kept(updates):
    """An update that had returned before another was called comes before it."""
    latest = None
    for update in updates:
        if latest and update.call.returned < latest.call.called:
            raise Violation("real time", f"the update at place {update.place} had returned before that at place {latest.place} "
                            "was called", update.call, latest.call)
        if not latest or update.call.called > latest.call.called:
            latest = update


def tickets_have_all(record, updates):
    """A ticket for all of the history has each update that had returned before, and none that was called later."""
    for call in record.calls:
        if call.name == "ticket":
            for update in updates:
                if update.place > call.stamp and update.call.returned < call.called:
                    raise Violation("ticket for all", f"it lacks the update at place {update.place}, which had returned before",
                                    call, update.call)
                if update.place <= call.stamp and update.call.called > call.returned:
                    raise Violation("ticket for all", f"it has the update at place {update.place}, which was called later", call,
                                    update.call)


def writes_follow_reads(record):
    """An update comes after all that its handle had seen."""
    for call in record.calls:
        if call.is_update() and call.stamp is not None:
            place = call.stamp - max(len(call.replies()[0]) - 1, 0)
            if call.replies()[0] and place <= call.before:
                raise Violation("writes follow reads", f"it is at place {place}, and {call.who()} had seen {call.before} "
                                "entries before", call)


def fronts_go_on(record):
    """Fronts never go back: each call of a handle or an asker begins at the front at which the one before ended, and ends at
    that or at a longer one. So what it has entered it sees from then on."""
    last = {}
    for call in record.calls:
        before = last.get((call.process, call.thread, call.asker))
        if before and call.called < before.returned:
            raise Violation("clock", "a thread makes two calls at once", before, call)
        if before and call.before < before.after:
            raise Violation("front that goes back", f"{call.who()} had seen {before.after} entries, and then {call.before}", before, call)
        if before and call.before > before.after:
            raise Violation("front that moves by itself", f"{call.who()} had seen {before.after} entries, and then {call.before}",
                            before, call)
        if call.after < call.before:
            raise Violation("front that goes back", f"{call.who()} had seen {call.before} entries, and then {call.after}", call)
        last[call.process, call.thread, call.asker] = call


def nothing_is_seen_early(record, updates):
    """No front has an update that was called after the front was seen."""
    latest = [None]
    for update in updates:
        latest.append(max(latest[-1] or update, update, key=lambda it: it.call.called))
    for call in record.calls:
        if call.after > len(updates):
            raise Violation("seen early", f"a front of {call.after} entries, of which there are {len(updates)}", call)
        seen = latest[call.after]
        if seen and seen.call.called > call.returned:
            raise Violation("seen early", f"its front has the update at place {seen.place}, which was called later", call, seen.call)


def batches_are_seen_whole(record, updates):
    """No front ends within a batch: all of its entries are seen, or none."""
    within = {it.place: it.call for it in updates if it.call.name == "batch" and it.place < it.call.stamp}
    for call in record.calls:
        if call.after in within:
            raise Violation("part of a batch", f"its front ends at place {call.after}, within a batch", call, within[call.after])


def answers_are_right(record, updates):
    """Each reply is that of a supervisor of one thread at its place, and each query is answered as by it at its front."""
    asked = collections.defaultdict(list)
    for call in record.calls:
        if call.is_query():
            asked[call.after].append(call)
    supervisor = recount.Supervisor(record.template)
    queries_are_right(supervisor, asked[0])
    for update in updates:
        reply = replied(supervisor, update)
        if reply != update.reply:
            raise Violation("reply", f"at place {update.place} a supervisor of one thread replies '{reply}' to "
                            f"'{update.operation}'", update.call)
        queries_are_right(supervisor, asked[update.place])


def replied(supervisor, update):
    """What a supervisor of one thread replies."""
    operation = recount.operation_of([it.encode() for it in update.operation.split(" ")])
    told = supervisor.perform(operation, update.moment, lambda argument: recount.script_answer(argument, update.moment))
    return told.decode()


def queries_are_right(supervisor, calls):
    for call in calls:
        told = answer_to(supervisor, call)
        if told != call.answer:
            raise Violation("query", f"at a front of {call.after} entries a supervisor of one thread answers '{told}'", call)


def answer_to(supervisor, call):
    """What a supervisor of one thread answers to this query. A view also has its front's length."""
    if supervisor.is_down:
        return "error down"
    if call.name == "count":
        return supervisor.count().decode()
    if call.name == "which":
        return supervisor.which().decode().replace("\n", " / ")
    rows = [it for it in supervisor.which().decode().splitlines() if it.startswith(f"child {call.words[1]} ")]
    row = rows[0] if rows else "none"
    return row if call.name == "child" else f"stamp {call.after} up / {supervisor.count().decode()} / {row}"


def lacking_queries(record, updates):
    """How many queries lack an update that had returned before they were asked."""
    returned = sorted((it.call.returned, it.place) for it in updates)
    asked = sorted((it.called, it.after) for it in record.calls if it.is_query())
    place, most, lacking = 0, 0, 0
    for called, front in asked:
        while place < len(returned) and returned[place][0] < called:
            most = max(most, returned[place][1])
            place += 1
        lacking += front < most
    return lacking


def main():
    try:
        check(Record(sys.stdin.read()))
    except Violation as found:
        print(found)
        return 1
    except Broken as why:
        print(why, file=sys.stderr)
        return 2
    return 0


if __name__ == "__main__":
    sys.exit(main())
