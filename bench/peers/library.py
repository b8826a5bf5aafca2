"""The library in Python beside a plain dict in Python: a crash until the child is restarted, a start with its termination, a child by its
number and the list of all, among that many children. Prints for each the medians of the rounds in ns, and that of their ratios.

The dict has OTP's rules for permanent children too: numbers that are never used again, and a window of restarts."""
import sys
import time
from collections import deque, namedtuple
from statistics import median

from sapyguendo import RUNNING, Reason, Reply, Supervisor, Template

ROUNDS, INTENSITY, PERIOD = 9, 1000, 1
Row = namedtuple("Row", "number status arg")


class Plain:
    """A supervisor of permanent children in a dict, with a start function."""

    def __init__(self, start):
        self.start, self.rows, self.made, self.moments = start, {}, 0, deque()

    def start_child(self, moment, argument):
        if not self.start(argument, moment):
            return Reply("start_failed")
        self.made += 1
        self.rows[self.made] = Row(self.made, "running", argument)
        return Reply("started", self.made)

    def exit(self, moment, number, reason):
        row = self.rows.get(number)
        if row is None:
            return Reply("stray", number)
        while self.moments and moment - self.moments[0] > PERIOD:
            self.moments.popleft()
        self.moments.append(moment)
        if len(self.moments) > INTENSITY:
            self.rows.clear()
            return Reply("gave_up")
        if not self.start(row.arg, moment):
            self.rows[number] = row._replace(status="restarting")
            return Reply("restarting", number)
        del self.rows[number]
        self.made += 1
        self.rows[self.made] = Row(self.made, "running", row.arg)
        return Reply("restarted", number, self.made)

    def terminate_child(self, moment, number):
        return Reply("ended" if self.rows.pop(number, None) else "not_found")

    def child(self, number):
        return self.rows.get(number)

    def which(self):
        return list(self.rows.values())


def crashes(sup, numbers, turns):
    reason, count, made = Reason.other("crash"), len(numbers), max(numbers)
    for i in range(turns):
        made += 1
        sup.exit(made // 500, numbers[i % count], reason)
        numbers[i % count] = made


def starts(sup, numbers, turns):
    for _ in range(turns):
        number = sup.start_child(0, "session-17")[1]
        sup.terminate_child(0, number)


def finds(sup, numbers, turns):
    count = len(numbers)
    for i in range(turns):
        sup.child(numbers[i % count])


def lists(sup, numbers, turns):
    for _ in range(max(1, turns // len(numbers))):
        sup.which()


def seconds(act, sup, numbers, turns):
    began = time.perf_counter()
    act(sup, numbers, turns)
    return (time.perf_counter() - began) / turns


def measured(what, act, rows, turns):
    """The line of the table: the median of the ratios of the rounds, and those of both in ns."""
    template = Template("permanent", intensity=INTENSITY, period=PERIOD, max=65536)
    pair, times = [(Supervisor(template), []), (Plain(lambda argument, moment: RUNNING), [])], []
    for sup, numbers in pair:
        numbers += [sup.start_child(0, "session-17")[1] for _ in range(rows)]
    for _ in range(ROUNDS):
        times.append([seconds(act, sup, numbers, turns) * 1e9 for sup, numbers in pair])
    ratio = median(ours / peer for ours, peer in times)
    assert len(pair[0][0].which()) == len(pair[1][0].which()) == rows
    print("| {}: {} among {} children | {:.2f} | {:.0f} | {:.0f} |".format(sys.argv[1], what, rows, ratio, *map(median, zip(*times))))


for rows in (1000, 30000):
    measured("crash until restarted", crashes, rows, 20000)
    measured("start and termination", starts, rows, 20000)
    measured("a child by its number", finds, rows, 20000)
    measured("listing, a row", lists, rows, 60000)
