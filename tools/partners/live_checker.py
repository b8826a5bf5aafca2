"""The calls and answers of four threads, by a client each, over one live crew, and its report: whether all of it can be."""
import re

WORDS = {"true": True, "false": False}


class Broken(Exception):
    """The record is not one that the program writes."""


class Violation(Exception):
    def __init__(self, rule, says):
        super().__init__(f"{rule}: {says}")
        self.rule = rule


class Record:
    """The lines of a run: the report, the driver's replies, what the children counted, each client's sums, the events of the threads
    in their order, and the audit."""

    def __init__(self, text):
        self.events, self.clients, self.named = [], [], {}
        for line in text.splitlines():
            words = [value_of(it) for it in line.split(" ")]
            if words[0] == "client":
                self.clients.append(fields_of(words[2:], line))
            elif isinstance(words[0], int):
                self.events.append(words)
            else:
                self.named[words[0]] = words[1] if words[0] == "audit" else fields_of(words[1:], line)
        lacking = {"report", "tally", "board", "audit"} - self.named.keys()
        if lacking or not self.clients:
            raise Broken(f"the record lacks {', '.join(sorted(lacking)) or 'the clients'}")

    def sum(self, name):
        return sum(it[name] for it in self.clients)


def value_of(word):
    return WORDS[word] if word in WORDS else int(word) if re.fullmatch("-?[0-9]+", word) else word


def fields_of(words, line):
    if len(words) % 2:
        raise Broken(f"a line is none of the record: {line}")
    return dict(zip(words[::2], words[1::2]))


def demand(holds, rule, says):
    if not holds:
        raise Violation(rule, says)


def check(record):
    """Raises the first violation."""
    check_account(record)
    check_ends(record)
    for client in range(len(record.clients)):
        check_events([it[1:] for it in record.events if it[0] == client], client)


def check_account(record):
    """Each child that was made has one exit, which was entered, and is one of those that clients, restarts and tries made."""
    report, tally, board = (record.named[it] for it in ("report", "tally", "board"))
    demand(not report["fault"] and not any(it["fault"] for it in record.clients), "no fault", f"{report}, {record.clients}")
    demand(report["adds_up"] and report["owed"] == 0, "the account adds up", report)
    demand(report["made"] == report["exits"] + report["not_entered"], "each child has an exit", report)
    made = record.sum("started") + tally["restarts"] + tally["retried"]
    demand(report["made"] == made, "clients, restarts and tries made the children", f"{report['made']} were made, and not {made}")
    demand(board["begun"] == report["made"], "each child was begun once", f"{board}, {report}")
    demand(board["gone"] == board["begun"], "each child is gone", board)
    demand(record.named["audit"], "the audit is Ok", "it is not")


def check_ends(record):
    """What ended by a crash was sent one, and what was ended by a client is a stray or came when all was down."""
    tally = record.named["tally"]
    demand(tally["restarts"] <= record.sum("crashes"), "a restart has its crash", f"{tally}, {record.sum('crashes')} crashes were sent")
    demand(tally["retried"] <= tally["failed"], "a later try has its failed restart", tally)
    demand(tally["strays"] <= record.sum("ended"), "a stray was ended by a client", f"{tally}, {record.sum('ended')} were ended")
    demand(record.named["board"]["heard"] <= record.sum("taken"), "what is heard was sent", record.named["board"])


def check_events(events, client):
    """Of one client: its numbers and fronts grow, and each answer is one that there can be."""
    front = 0
    for kind, *told in events:
        says = f"client {client}: {kind} {told}"
        if kind == "started":
            known, number = told
            demand(known < number, "numbers grow", says)
        elif kind == "kept":
            demand(told[1], "a child that nobody ends runs", says)
        elif kind == "ended":
            demand(not told[1], "a child that was ended is not listed", says)
        elif kind == "counted":
            called, ended, kept, before, after, active, listed = told
            demand(front <= before <= after, "fronts grow", says)
            demand(active <= listed, "the active are listed", says)
            demand(kept <= listed <= called - ended, "no more are listed than were started and not ended", says)
            front = after
        else:
            raise Broken(f"an event is none of the record: {says}")


def changed_count(text, place, by):
    """The last count that is reported, with another number at this place."""
    *_, found = re.finditer("^[0-9] counted (.*)$", text, re.M)
    numbers = found[1].split(" ")
    numbers[place] = str(int(numbers[place]) + by)
    return f"{text[:found.start(1)]}{' '.join(numbers)}{text[found.end(1):]}"


def changed_field(text, line, name, by):
    """The number of this name in the first line that begins so, greater by that many."""
    found = re.search(f"^{line} .*?\\b{name} ([0-9]+)", text, re.M)
    return f"{text[:found.start(1)]}{int(found[1]) + by}{text[found.end(1):]}"


# Wrong records: what each changes, and the rule that it breaks.
WRONG = {
    "an exit is forgotten": (lambda it: changed_field(it, "report", "exits", -1), "each child has an exit"),
    "an exit is entered twice": (lambda it: changed_field(it, "report", "exits", 1), "each child has an exit"),
    "a start is not counted": (lambda it: changed_field(it, "client 0", "started", -1), "clients, restarts and tries made the children"),
    "a restart is not counted": (lambda it: changed_field(it, "tally", "restarts", -1), "clients, restarts and tries made the children"),
    "a child is begun twice": (lambda it: changed_field(it, "board", "begun", 1), "each child was begun once"),
    "a child is still there": (lambda it: changed_field(it, "board", "gone", -1), "each child is gone"),
    "a restart has no crash": (lambda it: changed_field(it, "client 0", "crashes", -(10**9)), "a restart has its crash"),
    "a try comes from nowhere": (lambda it: changed_field(changed_field(it, "tally", "retried", 10**6), "tally", "restarts", -(10**6)),
                                 "a later try has its failed restart"),
    "a stray is nobody's": (lambda it: changed_field(it, "tally", "strays", 10**9), "a stray was ended by a client"),
    "a message is heard that was not sent": (lambda it: changed_field(it, "board", "heard", 10**9), "what is heard was sent"),
    "the audit is refused": (lambda it: it.replace("audit true", "audit false"), "the audit is Ok"),
    "a kept child does not run": (lambda it: re.sub("(kept [0-9]+) true", "\\1 false", it, count=1), "a child that nobody ends runs"),
    "an ended child is listed": (lambda it: re.sub("(ended [0-9]+) false", "\\1 true", it, count=1),
                                 "a child that was ended is not listed"),
    "a number is given again": (lambda it: re.sub("started [0-9]+ ([0-9]+)$", "started \\1 \\1", it, count=1, flags=re.M), "numbers grow"),
    "a front goes back": (lambda it: changed_count(it, 4, -(10**9)), "fronts grow"),
    "more are active than listed": (lambda it: changed_count(it, 5, 10**9), "the active are listed"),
    "more are listed than were started": (lambda it: changed_count(it, 6, 10**9), "no more are listed than were started and not ended"),
}
