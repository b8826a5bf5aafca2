"""The name `scripts`: draws texts, and times `supload` and its peer on each."""
import os
import random
import tempfile

import build
import measure

SEED = 17

# Bytes, and how many children are alive once the first lines have started them.
TEXTS = [(64 << 10, 100), (64 << 10, 1000), (1 << 20, 1000), (1 << 20, 10000), (16 << 20, 1000), (16 << 20, 60000)]

HEAD_OF_SCRIPT = "sup permanent worker 1000 1 65536\n"
HEAD_OF_HISTORY = "history 2 permanent worker 1000 1 65536 plain never\n"


class Drawing:
    """The lines of one text: first the starts, and then a drawn mix that keeps as many children alive."""

    def __init__(self, alive, is_history):
        self.draw = random.Random(f"{SEED} {alive} {is_history}")
        self.wanted, self.is_history = alive, is_history
        self.alive, self.made, self.turn = [], 0, 0
        self.lines = self.effective = 0

    def spelled(self, verb, words, asked="running"):
        if self.is_history:
            return f"0 {self.lines} {self.turn} {verb} {words} {asked}\n"
        return f"{verb} {self.turn} {words}\n"

    def take_one(self):
        """A child of those alive, which is taken out."""
        place = self.draw.randrange(len(self.alive))
        self.alive[place], self.alive[-1] = self.alive[-1], self.alive[place]
        return self.alive.pop()

    def line(self):
        """One line. Of 100 draws 70 restart a child, 20 end one (the next line starts another), 5 are stray, and 5 count
        or, in a history, end one too."""
        self.turn += 1
        chance = self.draw.randrange(100)
        if len(self.alive) < self.wanted:
            # (a child was ended, or the first are yet to be started)
            self.made += 1
            self.alive.append(self.made)
            return self.spelled("start", f"session-{self.made}"), True
        if chance < 5:
            return self.spelled("exit", "0 crash"), False
        if chance < 10 and not self.is_history:
            return "count\n", True
        if chance < 30:
            return self.spelled("terminate", f"{self.take_one()}", "ignore"), True
        old = self.take_one()
        self.made += 1
        self.alive.append(self.made)
        return self.spelled("exit", f"{old} crash"), True

    def write(self, file, size):
        """Writes lines up to this size."""
        total = file.write(HEAD_OF_HISTORY if self.is_history else HEAD_OF_SCRIPT)
        while True:
            line, does = self.line()
            total += len(line)
            if total > size:
                return
            file.write(line)
            self.lines += 1
            self.effective += does


def sized(size):
    return f"{size >> 20} MiB" if size >= 1 << 20 else f"{size >> 10} KiB"


def drawn(command, size, alive, name):
    """Draws a text into a file, and says what it is."""
    drawing = Drawing(alive, command == "replay")
    with open(name, "w") as file:
        drawing.write(file, size)
    share = 100 * drawing.effective // drawing.lines
    return f"{command}, {sized(size)}, {drawing.lines:,} lines, {alive:,} alive, {share} % do something"


def is_same(one, other):
    """Whether two open files have the same bytes."""
    while True:
        ours, theirs = one.read(1 << 16), other.read(1 << 16)
        if ours != theirs:
            return False
        if not ours:
            return True


def time_text(label, programs, name, rounds, probe):
    """The milliseconds and the most memory of both on one text, in turn; both must write the same."""
    times, memory = ([], []), [0, 0]
    for _ in range(rounds):
        outs = []
        probe.look()
        for side, program in enumerate(programs):
            took, most, out = measure.run(*program, name)
            times[side].append(took * 1000)
            memory[side] = max(memory[side], most)
            outs.append(out)
        if not is_same(*outs):
            raise measure.Failed(f"{label}: the two wrote other replies")
        for out in outs:
            out.close()
    return times, memory


def run(rounds):
    supload, plain = build.supload(), build.plain("scripts")
    launch, probe = build.plain("launch"), measure.Probe(build.plain("probe"))
    table, memories = {}, []
    with tempfile.TemporaryDirectory() as room:
        for command in ("script", "replay"):
            for size, alive in TEXTS:
                name = os.path.join(room, "text")
                label = drawn(command, size, alive, name)
                programs = [(launch, [it, command]) for it in (supload, plain)]
                times, memory = time_text(label, programs, name, rounds, probe)
                table[label] = times
                memories.append((label, memory))
    print(f"plain Rust: best and middle of {rounds} rounds in turn, milliseconds of the whole program")
    measure.write_table(table)
    print("| text | most memory, ours | peer |\n|---|---|---|")
    for label, memory in memories:
        print(f"| {label} | {' | '.join(measure.mebibytes(it) for it in memory)} |")
    print()
    probe.write()
