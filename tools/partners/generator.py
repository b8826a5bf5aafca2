"""Random scripts and histories. One seed makes one text.

A walk follows the supervisor by the recount, only to choose what is likely to matter: numbers that are listed, retries where a
row waits, moments about the edge of the period. What is right is not decided here.
"""
import random

import mutator
import recount

MOST = recount.MOST
COMMON = {"restart": "permanent", "kind": "worker", "intensity": "3", "period": "5", "max": "10"}
NAMES = ["a", "b", "session-7", "upload", "x" * 40, "~!", "#1", "running", "Ignore", "ignored", "failed", "normal"]
ODD_GAPS = ["gap", "gap:", "gap:1", "gap:1:", "gap::9", "gap:01:9", "gap:0:x", "gap:0:9:2", "gap:-1:9", "Gap:0:9"]
CRASHES = ["crash", "kill", "killed", "noproc", "Normal", "normally", "shut", "shutdown_", "shutdown;x", "{shutdown,x}", "y" * 40]
CLEAN = ["normal", "shutdown", "shutdown:done", "shutdown:" + "z" * 40, "shutdown:shutdown:x"]
OUT_OF_RANGE = {"intensity": ["1001", str(MOST)], "period": ["0", "86401"], "max": ["0", "65537"]}
ENDINGS = 3


def made(seed):
    """The kind of text, `script` or `replay`, and its bytes."""
    return Walk(random.Random(seed)).text(is_damaged=True)


def sound(seed):
    """The same before a line may be damaged: a text of the formats."""
    return Walk(random.Random(seed)).text(is_damaged=False)


class Walk:
    def __init__(self, rng):
        self.rng = rng
        self.kind = rng.choice(["script", "replay"])
        self.is_long = rng.random() < 0.01
        fields = self.fields()
        self.header = self.header_of(fields)
        template = recount.Template([it.encode() for it in fields])
        usual = recount.Template([it.encode() for it in COMMON.values()])
        self.sup = recount.Supervisor(template if template.can_be() else usual)
        self.style = rng.choice(["slow", "slow", "edge", "edge", "back", "back", "huge", "long"])
        self.now = MOST - rng.randrange(1, 200) if self.style == "huge" else rng.choice([0, 0, 5, 1000, 2**32 - 1])
        self.clean = rng.choice([0.1, 0.3, 0.6])
        self.answers = rng.choice([[90, 5, 5], [60, 10, 30], [40, 30, 30]])
        self.weights = rng.choice([[30, 35, 10, 10], [40, 25, 5, 20], [15, 50, 20, 5], [15, 60, 2, 2], [30, 10, 40, 30]])
        self.handles = rng.choice([[0], [1, 2], [0, 7, MOST]])

    # The header

    def fields(self):
        """Five fields or seven, which in most cases a template can have."""
        rng = self.rng
        fields = {
            "restart": rng.choice(["permanent", "transient", "transient", "temporary"]),
            "kind": rng.choice(["worker", "worker", "supervisor"]),
            "intensity": str(rng.choice([30, 60, 100] if self.is_long else [0, 1, 1, 2, 2, 2, 3, 3, 5, 10, 1000])),
            "period": str(rng.choice([1, 2, 3, 5, 5, 5, 10, 10, 60, 86400])),
            "max": str(rng.choice([30, 100, 300, 65536] if self.is_long else [1, 2, 3, 4, 6, 10, 10, 50, 65536])),
        }
        if rng.random() < 0.03:
            name = rng.choice(list(OUT_OF_RANGE))
            fields[name] = rng.choice(OUT_OF_RANGE[name])
        return [*fields.values(), *self.shutdown(fields["restart"])]

    def shutdown(self, restart):
        """Mark and auto, or nothing; three in a hundred do not fit."""
        rng, which = self.rng, self.rng.random()
        if which < 0.35:
            return []
        if which < 0.38:
            return ["significant", rng.choice(["never", "any", "all"])]
        if restart == "permanent" or which < 0.5:
            return ["plain", rng.choice(["never", "any", "all"])]
        return ["significant", rng.choice(["any", "all", "all"])]

    def header_of(self, fields):
        if self.kind == "script":
            return " ".join(["sup", *fields])
        return " ".join(["history", "1" if len(fields) == 5 else "2", *fields])

    # What a line has

    def moment(self):
        """The next moment; the style decides how moments follow one another."""
        rng, period = self.rng, self.sup.template.period
        if self.style == "long" and rng.random() < 0.1:
            self.now += 2 * period + rng.randrange(100)
        elif self.style == "edge":
            self.now += rng.choice([0, 0, 1, period - 1, period, period + 1])
        elif self.style == "back":
            self.now += rng.choice([0, 1, 1, 2, 3, period // 2, period])
        else:
            self.now += rng.choice([0, 0, 0, 1, 1, 2, 3])
        self.now = min(self.now, MOST)
        if self.style == "back" and rng.random() < 0.4:
            return max(0, self.now - rng.choice([1, 2, 3, period // 2, period, period + 1, self.now]))
        return self.now

    def argument(self):
        rng, which = self.rng, self.rng.random()
        if which < 0.4:
            return rng.choice(NAMES)
        if which < 0.9:
            first = max(0, self.now + rng.choice([-3, -1, 0, 1, 1, 1, 2, 2, 3, 5]))
            end = first + rng.choice([0, 1, 2, 5, 20])
            return f"gap:{first}:{end}" if len(f"{first}:{end}") <= 36 else f"gap:{rng.choice([0, 1])}:{end}"
        return rng.choice(["ignore", "fail", "fail", *ODD_GAPS])

    def number(self, wanted):
        """The number of a child: most often one of those that are wanted."""
        rng, which = self.rng, self.rng.random()
        if wanted and which < 0.85:
            return rng.choice(wanted)
        if which < 0.97:
            return rng.randrange(0, self.sup.made + 2)
        return rng.choice([MOST, 2**32, 2**63])

    def operation(self):
        """A word of an operation and what follows its moment."""
        rng, rows = self.rng, self.sup.rows
        running = [it for it, row in rows.items() if row[0]]
        waiting = [it for it, row in rows.items() if not row[0]]
        start, leave, retry, terminate = self.weights
        weights = [start, leave if running else 2, retry if waiting else 1, terminate if rows else 1, 0.3]
        name = rng.choices(["start", "exit", "retry", "terminate", "stop"], weights)[0]
        if name == "start":
            return name, self.argument()
        if name == "exit":
            clean = 0.7 if waiting and len(running) == 1 else self.clean
            return name, f"{self.number(running)} {rng.choice(CLEAN if rng.random() < clean else CRASHES)}"
        if name == "stop":
            return name, ""
        return name, str(self.number(waiting or list(rows) if name == "retry" else list(rows)))

    # Lines

    def line(self, place):
        return self.command() if self.kind == "script" else self.entry(place)

    def command(self):
        rng, which = self.rng, self.rng.random()
        if which < 0.16:
            return "which" if which < 0.09 else "count"
        if which < 0.19:
            return f"{rng.choice(['terminate_id', 'delete_child', 'restart_child'])} {rng.choice(NAMES)}"
        name, words = self.operation()
        if name == "exit" and rng.random() < 0.4:
            self.go_to_gap(int(words.split(" ")[0]))
        return self.followed(f"{name} {self.moment()} {words}".rstrip())

    def go_to_gap(self, child):
        """Goes on to the gap of a child's argument, if it has one that is near: its restart fails there."""
        mark, *moments = self.sup.rows.get(child, [True, b""])[1].split(b":")
        if mark == b"gap" and len(moments) == 2 and moments[0].isdigit() and self.now < int(moments[0]) <= self.now + 50:
            self.now = int(moments[0])

    def entry(self, place):
        rng = self.rng
        name, words = self.operation()
        weights = self.answers if name != "exit" else rng.choice([self.answers, [20, 5, 75]])
        answer = rng.choices(["running", "ignore", "failed"], weights)[0]
        if answer == "failed":
            answer += f" {rng.choice([0, 7, recount.MOST_CODE, recount.MOST_CODE])}"
        handle, serial = rng.choice(self.handles), place if rng.random() < 0.9 else rng.choice([0, MOST])
        return self.followed(f"{handle} {serial} {self.moment()} {f'{name} {words}'.rstrip()} {answer}")

    def followed(self, line):
        """The line, once the recount has made the step."""
        if self.kind == "script":
            recount.command_reply(self.sup, line.encode())
        else:
            moment, operation, answer = recount.entry_of(line.encode())
            self.sup.perform(operation, moment, lambda _argument: answer)
        return line

    def closing(self):
        """Lines that show what is listed in the end."""
        if self.kind == "script":
            return ["which", "count"]
        asked = [*sorted(self.sup.rows), self.sup.made + 1][:20]
        name = self.rng.choice(["retry", "terminate"])
        return [f"0 0 {self.now} {name} {it} running" for it in asked]

    def text(self, is_damaged):
        rng = self.rng
        lines, left = [self.header], 1000 if self.is_long else rng.choice([4, 10, 20, 20, 40, 40, 60, 150])
        while left > 0:
            lines.append(self.line(len(lines)))
            left = min(left - 1, ENDINGS) if self.sup.is_down else left - 1
        if rng.random() < 0.7:
            lines += self.closing()
        lines = [it.encode() for it in lines]
        if is_damaged and rng.random() < 0.1:
            place = rng.randrange(len(lines))
            lines[place] = mutator.damaged_line(rng, lines[place])
        has_end = self.kind == "replay" or rng.random() < 0.9
        return self.kind, b"\n".join(lines) + (b"\n" if has_end else b"")
