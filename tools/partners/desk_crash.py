"""Rounds over one desk whose process ends itself during a write of its journal, and what continues from there: how such a
round is run, what must hold of the two processes beside the rules of desk_checker.py, and wrong records of it.

Each thread writes what it asks for ahead of an update or a batch, and its record before it continues. So at the crash each has at
most one call under way that lacks its reply."""
import collections
import os
import random
import re
import subprocess
import tempfile

import desk_checker
import desk_runs
import recount
from desk_checker import Broken, Violation

ENDED_ITSELF = 70
FIRST_LINE, MOST = 70, 6000
ENTRY = re.compile(r"(\d+) (\d+) (\d+) (.+) (running|ignore|failed \d+)")
AHEAD = re.compile(r"ahead (\d+)\.0 (\d+) (\d+) \| (.*)")
ANSWER_PART = re.compile("(r(u(n(n(i(ng?)?)?)?)?)?|i(g(n(o(re?)?)?)?)?|f(a(i(l(e(d( [0-9]*)?)?)?)?)?)?)?")

Entry = collections.namedtuple("Entry", "place handle serial moment operation")
Texts = collections.namedtuple("Texts", "first journal second later")


def bytes_of(seed):
    """How many bytes the journal's file takes: a place after its first line, by the seed."""
    return FIRST_LINE + random.Random(seed).randrange(MOST)


def texts(program, seed):
    """Runs both processes: what the first one's threads wrote, its journal, and the same of the one that continues from it."""
    with tempfile.TemporaryDirectory(prefix="partners-") as room:
        journal, later = f"{room}/journal", f"{room}/later"
        first, status = run(program, seed, journal, str(bytes_of(seed)))
        if status not in (0, ENDED_ITSELF):
            raise desk_runs.Ended(f"the first process of seed {seed} ended with status {status}")
        if status == ENDED_ITSELF and os.path.getsize(journal) != bytes_of(seed):
            raise desk_runs.Ended(f"the journal of seed {seed} has not as many bytes as its file took")
        second, status = run(program, seed, later, str(1 << 40), journal)
        if status != 0:
            raise desk_runs.Ended(f"the process of seed {seed} that continues from the journal ended with status {status}")
        return Texts(first, text_of(journal), second, text_of(later))


def texts_of_wrong(crate, mutant, seeds):
    """The same over a desk into which a mutant of a crate was put, by the seeds; None where a process does not end as it should."""
    with desk_runs.wrong_desk(crate, mutant) as room:
        first = desk_runs.tried(room, mutant, {it: [it, f"{room}/{it}", bytes_of(it)] for it in seeds})
        later = desk_runs.tried(room, mutant, {it: [it, f"{room}/{it}.later", 1 << 40, f"{room}/{it}"] for it in seeds})
        return {it: Texts(first[it][0], text_of(f"{room}/{it}"), later[it][0], text_of(f"{room}/{it}.later"))
                if first[it][1] in (0, ENDED_ITSELF) and later[it][1] == 0 else None for it in seeds}


def run(program, *words):
    try:
        ran = subprocess.run([program, *map(str, words)], stdin=subprocess.DEVNULL, capture_output=True, timeout=desk_runs.SECONDS,
                             cwd="/", check=False)
    except subprocess.TimeoutExpired:
        raise desk_runs.Ended(f"the round of seed {words[0]} did not end within {desk_runs.SECONDS} seconds") from None
    if ran.stderr:
        raise desk_runs.Ended(f"a process of seed {words[0]} says: {ran.stderr.decode(errors='replace')}")
    return ran.stdout.decode(), ran.returncode


def text_of(file):
    with open(file, encoding="utf-8", newline="") as it:
        return it.read()


class Whole(desk_checker.Record):
    """A record that is put together: of a process that crashed, or of two of them."""

    def __init__(self, head, calls, end, journal):
        self.take_head(head)
        self.calls, self.end, self.journal = calls, end, journal


class Lines:
    """What the threads of one process wrote: the first line, the calls in order, for each handle its last call of an update or a
    batch with the record of it or None, and the last line's number, or None if there is none."""

    def __init__(self, text):
        self.head, *lines = text.splitlines()
        self.calls, self.last, self.end = [], {}, None
        for line in lines:
            ahead = AHEAD.fullmatch(line)
            if ahead:
                self.take_ahead(*ahead.groups())
            elif line.startswith("end "):
                self.end = int(line.removeprefix("end "))
            else:
                self.take(desk_checker.Call(line))

    def take_ahead(self, handle, called, before, what):
        call = desk_checker.Call(f"{handle}.0 {called} {called} {before} {before} | {what} | - | fault 0")
        if self.last.get(call.thread, (None, call))[1] is None:
            raise Violation("under way", f"{call.who()} has two calls without a reply", self.last[call.thread][0], call)
        self.last[call.thread] = call, None

    def take(self, call):
        self.calls.append(call)
        if call.is_update():
            ahead, record = self.last.get(call.thread, (None, None))
            if ahead is None or record or (ahead.words, ahead.called) != (call.words, call.called):
                raise Violation("under way", "it was not written ahead what is asked for", call)
            self.last[call.thread] = ahead, call

    def clock(self):
        return max((it.returned for it in [*self.calls, *(ahead for ahead, _ in self.last.values())]), default=0) + 1


class Crash:
    """The two processes of a round."""

    def __init__(self, it):
        try:
            self.first, self.second = Lines(it.first), Lines(it.second)
            self.whole, self.torn = it.journal[: it.journal.rfind("\n") + 1], it.journal[it.journal.rfind("\n") + 1 :]
            self.later = it.later
            self.entries = [entry_of(place, line) for place, line in enumerate(self.whole.splitlines()[1:], 1)]
            self.template = desk_checker.template_of(self.first.head)
            self.replies = replies_of(self.template[0], self.entries)
        except (ValueError, IndexError, recount.Bad, recount.Fault) as why:
            raise Broken(f"this is no record of a crash: {why}") from None
        self.of = collections.defaultdict(list)
        for entry in self.entries:
            self.of[entry.handle].append(entry)

    def under_way(self):
        """Each handle's last call with its record or None, and the entries that the journal has of it."""
        for handle, (ahead, record) in self.first.last.items():
            before = sum(len(it.replies()[0]) for it in self.first.calls if it.is_update() and it.thread == handle and it is not record)
            yield ahead, record, self.of[handle][before:]

    def torn_call(self):
        """The call whose write was cut, as far as the journal tells, with its record or None, and its entries that are there."""
        is_full = len(self.entries) == self.template[1]
        for ahead, record, entries in self.under_way():
            left = ahead.operations()[len(entries) :]
            at_end = not entries or entries[-1].place == len(self.entries)
            if not left or not at_end:
                continue
            line = f"{ahead.thread} {len(self.of[ahead.thread])} {ahead.words[1]} {left[0]} "
            if self.torn and is_part(self.torn, line) or not self.torn and entries and not record and not is_full:
                return ahead, record, entries
        return None


def entry_of(place, line):
    found = ENTRY.fullmatch(line)
    if not found:
        raise Violation("journal", f"the line at place {place} is '{line}'")
    handle, serial, moment, operation, _ = found.groups()
    return Entry(place, int(handle), int(serial), int(moment), operation)


def is_part(torn, line):
    """Whether this is a first part of the line, after which the answer of the start function comes."""
    return line.startswith(torn) or torn.startswith(line) and bool(ANSWER_PART.fullmatch(torn[len(line) :]))


def replies_of(template, entries):
    supervisor = recount.Supervisor(template)
    return [desk_checker.replied(supervisor, it) for it in entries]


# The rules. Each raises a Violation, and relies on those before it.


def check(crash):
    """Raises the first violation. Returns the record of the first process, with the calls under way that its journal has, and that
    of both."""
    entries_are_gapless(crash)
    torn_call_is_unanswered(crash)
    replies_have_entries(crash)
    entries_have_calls(crash)
    torn_call_is_unseen(crash)
    recovery_begins_with_the_lines(crash)
    first = Whole(crash.first.head, completed(crash), len(crash.entries), crash.whole)
    both = Whole(crash.first.head, [*first.calls, *later_calls(crash)], crash.second.end, crash.later)
    desk_checker.check(both)
    return first, both


def entries_are_gapless(crash):
    """The entries of a handle are its 0th, 1st, 2nd, .. in the journal's order."""
    for handle, entries in crash.of.items():
        for serial, entry in enumerate(entries):
            if entry.serial != serial:
                raise Violation("lost entry", f"the line at place {entry.place} is number {entry.serial} of handle {handle}, where its "
                                f"number {serial} belongs")


def torn_call_is_unanswered(crash):
    """A torn last line is of a call under way, of which no entry was answered."""
    found = crash.torn_call()
    if crash.torn and not found:
        raise Violation("torn line", f"'{crash.torn}' is of no call that was under way", *(it for it, *_ in crash.under_way()))
    if found and found[1]:
        raise Violation("answer of a torn call", "it was answered, and the journal lacks a part of it", found[1])


def replies_have_entries(crash):
    """Each reply is of an update in the journal."""
    for call in (it for it in crash.first.calls if it.is_update() and it.stamp is not None):
        for at, operation in enumerate(call.operations()[: len(call.replies()[0])]):
            place = call.stamp - len(call.replies()[0]) + 1 + at
            entry = crash.entries[place - 1] if 0 < place <= len(crash.entries) else None
            if not entry or (entry.handle, entry.moment, entry.operation) != (call.thread, int(call.words[1]), operation):
                raise Violation("reply without an entry", f"the journal lacks '{operation}' at place {place}", call)


def entries_have_calls(crash):
    """What the journal has without a reply is of the one call that was under way in a thread: all of its operations, or the first of
    those of the torn call; or of a batch at the end of a full history."""
    asked = {handle: ahead for handle, (ahead, _) in crash.first.last.items()}
    for handle, entries in crash.of.items():
        if handle not in asked:
            raise Violation("entry without a call", f"the line at place {entries[0].place} is of a handle that made no call")
    torn = crash.torn_call()
    for ahead, record, entries in crash.under_way():
        wanted = len(record.replies()[0]) if record else len(ahead.operations())
        operations = [(int(ahead.words[1]), it) for it in ahead.operations()][: len(entries)]
        places = [it.place for it in entries]
        is_first_part = [(it.moment, it.operation) for it in entries] == operations and len(entries) <= wanted
        if not is_first_part or entries and places != list(range(places[0], places[0] + len(places))):
            raise Violation("entry without a call", f"the journal has the places {places} of {ahead.who()}, which asked for this", ahead)
        is_full = len(crash.entries) == crash.template[1]
        if entries and len(entries) < wanted and not is_full and (not torn or torn[0] is not ahead):
            raise Violation("part of a batch", f"the journal has the places {places} of it, and continues after them", ahead)


def torn_call_is_unseen(crash):
    """No front has an entry of the torn call: it was never published."""
    found = crash.torn_call()
    first = len(crash.entries) - len(found[2]) if found else len(crash.entries)
    for call in crash.first.calls:
        if call.after > first:
            raise Violation("torn call that is seen", f"its front has {call.after} entries, and the torn call begins after {first}", call)


def recovery_begins_with_the_lines(crash):
    """The journal of the process that continues begins with the whole lines of the first, and that process came to its end."""
    if not crash.later.startswith(crash.whole):
        raise Violation("recovery", "the journal does not begin with the whole lines of the one before")
    if crash.second.end is None or crash.second.head != crash.first.head:
        raise Violation("recovery", "the process that continues did not end as it should")
    for ahead, record in crash.second.last.values():
        if not record:
            raise Violation("recovery", "a call was not answered", ahead)


def completed(crash):
    """The calls of the first process, and those under way that the journal has: each with the replies of a supervisor of one thread,
    and as if it had returned at the very end."""
    calls, clock = list(crash.first.calls), crash.first.clock()
    for ahead, record, entries in crash.under_way():
        if entries and not record:
            places = [it.place for it in entries]
            is_part_of_full = len(entries) < len(ahead.operations()) and len(crash.entries) == crash.template[1] and not crash.torn
            ends = [desk_checker.FULL if is_part_of_full else "done"] if ahead.name == "batch" else []
            asked = ahead.operations() if is_part_of_full else ahead.operations()[: len(entries)]
            answer = " / ".join([*(crash.replies[it - 1] for it in places), *ends])
            calls.append(desk_checker.Call(f"{ahead.thread}.0 {ahead.called} {clock} {ahead.before} {places[-1]} | {ahead.name} "
                                           f"{ahead.words[1]} {' / '.join(asked)} | {places[-1]} | {answer}"))
    return calls


def later_calls(crash):
    """The calls of the process that continues, later than all of the first."""
    later = crash.first.clock() + 1
    for call in crash.second.calls:
        call.called, call.returned, call.process = call.called + later, call.returned + later, 1
    return crash.second.calls


def count(crash, tally):
    """Counts what a round had."""
    found = crash.torn_call()
    tally["crashed"] += crash.first.end is None
    tally["torn"] += bool(crash.torn)
    tally["parts"] += bool(found and found[2])
    for _, record, entries in crash.under_way():
        tally["unanswered"] += not record and bool(entries)
        tally["lost"] += not record and not entries
    tally["before"] += len(crash.entries)
    tally["after"] += crash.second.end - len(crash.entries)
    tally["resumed"] += len({it.thread for it in crash.second.calls if it.thread in crash.of})
    tally["new"] += len({it.thread for it in crash.second.calls if it.thread not in crash.of})
    tally["calls"] += len(crash.first.calls) + len(crash.second.calls)


# Wrong records, each made by one change of the texts of a round: a name, the rule that is broken first, and a function that answers
# the changed texts, or None if there is no place for it.


def changed_lines(text, change):
    lines = text.splitlines(True)
    return "".join(lines) if change(lines) else None


def answered_lines(lines):
    """The lines of the records of updates that were entered."""
    return [(at, line) for at, line in enumerate(lines) if re.match(r"\d+\.0 .*\| update [^|]* \| \d+ \|", line)]


def reply_without_an_entry(it):
    """The journal ends before the last update that was answered."""
    lines = it.first.splitlines(True)
    found = [desk_checker.Call(line.rstrip("\n")).stamp for _, line in answered_lines(lines)]
    if not found:
        return None
    return it._replace(journal="".join(it.journal.splitlines(True)[: max(found)]))


def lost_entry(it):
    def change(lines):
        whole = [at for at, line in enumerate(lines) if at > 0 and line.endswith("\n")]
        handles = [lines[at].split(" ")[0] for at in whole]
        early = [at for place, at in enumerate(whole) if handles[place] in handles[place + 1 :]]
        return bool(early) and bool(lines.pop(early[len(early) // 2]))

    journal = changed_lines(it.journal, change)
    return journal and it._replace(journal=journal)


def torn_call_is_answered(it):
    crash = Crash(it)
    found = crash.torn_call()
    if not found:
        return None
    ahead, _, entries = found
    asked = len(ahead.operations())
    stamp = len(crash.entries) - len(entries) + asked
    answer = " / ".join(["ok"] * asked + (["done"] if ahead.name == "batch" else []))
    line = f"{ahead.thread}.0 {ahead.called} {crash.first.clock()} {ahead.before} {stamp} | {' '.join(ahead.words)} | {stamp} | {answer}\n"
    return it._replace(first=it.first + line)


def changed_reply(it):
    def change(lines):
        found = [at for at, line in answered_lines(lines) if re.search(r"\| ok \d+$", line)]
        if found:
            at = found[len(found) // 2]
            lines[at] = re.sub(r"\| ok (\d+)\n$", lambda told: f"| ok {int(told[1]) + 1}\n", lines[at])
        return bool(found)

    first = changed_lines(it.first, change)
    return first and it._replace(first=first)


def torn_line_of_another(it):
    torn = it.journal[it.journal.rfind("\n") + 1 :]
    return it._replace(journal=it.journal[: -len(torn)] + "9" + torn[1:]) if torn else None


def two_calls_lack_their_replies(it):
    def change(lines):
        found = answered_lines(lines)
        handles = [line.split(".")[0] for _, line in found]
        early = [at for place, (at, _) in enumerate(found) if handles[place] in handles[place + 1 :]]
        return bool(early) and bool(lines.pop(early[len(early) // 2]))

    first = changed_lines(it.first, change)
    return first and it._replace(first=first)


def torn_call_is_seen(it):
    crash = Crash(it)
    found = crash.torn_call()
    asks = [(at, line) for at, line in enumerate(it.first.splitlines(True)) if re.match(r"\d+\.[1-9]\d* .*\| count \|", line)]
    if not found or not asks:
        return None
    at, line = asks[-1]
    words = line.split(" ", 5)
    words[4] = str(len(crash.entries) - len(found[2]) + 1)
    lines = it.first.splitlines(True)
    lines[at] = " ".join(words)
    return it._replace(first="".join(lines))


def entry_without_a_call(it):
    found = Crash(it).torn_call()
    place = it.journal.rfind("\n") + 1
    # (after entries of the torn call it would part these from the torn line)
    return it._replace(journal=f"{it.journal[:place]}9 0 0 stop running\n{it.journal[place:]}") if found and not found[2] else None


def recovery_lacks_an_entry(it):
    place = it.journal.count("\n") - 1
    lines = it.later.splitlines(True)
    return it._replace(later="".join([*lines[:place], *lines[place + 1 :]])) if place > 0 and lines[place] != lines[place + 1] else None


def recovery_keeps_the_torn_line(it):
    torn = it.journal[it.journal.rfind("\n") + 1 :]
    lines, place = it.later.splitlines(True), it.journal.count("\n")
    return it._replace(later="".join([*lines[:place], torn, *lines[place:]])) if torn else None


Mutant = collections.namedtuple("Mutant", "name rule change")
MUTANTS = (
    Mutant("a_reply_that_is_not_in_the_journal", "reply without an entry", reply_without_an_entry),
    Mutant("an_entry_that_is_lost", "lost entry", lost_entry),
    Mutant("an_entry_of_a_torn_call_is_answered", "answer of a torn call", torn_call_is_answered),
    Mutant("a_reply_that_is_changed", "reply", changed_reply),
    Mutant("a_torn_line_of_another_call", "torn line", torn_line_of_another),
    Mutant("two_calls_lack_their_replies", "under way", two_calls_lack_their_replies),
    Mutant("a_torn_call_is_seen", "torn call that is seen", torn_call_is_seen),
    Mutant("an_entry_that_nobody_asked_for", "entry without a call", entry_without_a_call),
    Mutant("a_recovery_that_lacks_an_entry", "recovery", recovery_lacks_an_entry),
    Mutant("a_recovery_that_keeps_the_torn_line", "journal", recovery_keeps_the_torn_line),
)


def changed(mutant, found):
    """What is violated by the texts with the change, None if nothing is, or the word `no place` if none has one."""
    texts_of = mutant.change(found)
    return violation_of(texts_of) if texts_of else "no place"


def violation_of(found):
    try:
        check(Crash(found))
    except Violation as why:
        return why
    return None
