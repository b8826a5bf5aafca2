"""Runs programs in turn, and tells their figures: the ratio first, then middle and best of each."""
import collections
import os
import re
import statistics
import subprocess
import tempfile

# What each program writes of each figure: how long that many took, or how many bytes, and what came of the work (`-`: it hangs
# on the schedule), which must be the same on both sides.
LINE = re.compile(r"(.+): (\d+) (ns|bytes), (\d+) times, answer (\S+)")

# A figure: how much each took, of what, and the work.
Figure = collections.namedtuple("Figure", "each unit work")


class Failed(Exception):
    """A run or a build that gave no result."""


def machine():
    """The machine, and how busy it is as the measurement begins."""
    with open("/proc/cpuinfo") as file:
        models = re.findall(r"^model name\s*: (.*)$", file.read(), re.M)
    load = os.getloadavg()[0]
    return f"{os.cpu_count()} cores, {models[0] if models else 'unknown processor'}; load {load:.1f} before the first run"


def run(launch, words, source=os.devnull):
    """Runs a program to its end. Returns its seconds, its most memory in KiB and the file with what it wrote."""
    out = tempfile.TemporaryFile()
    with open(source, "rb") as file, tempfile.NamedTemporaryFile() as told:
        launched = subprocess.run([launch, told.name, *words], stdin=file, stdout=out)
        what = told.read().split()
    if launched.returncode != 0 or len(what) != 3:
        raise Failed(f"{' '.join(words)} was not run")
    status, took, memory = map(int, what)
    if status != 0:
        raise Failed(f"{' '.join(words)} ended with status {status}")
    if memory <= 0:
        raise Failed(f"{' '.join(words)}: its memory is not known")
    if out.seek(0, os.SEEK_END) == 0:
        raise Failed(f"{' '.join(words)} wrote nothing")
    out.seek(0)
    return took / 1e9, memory, out


class Probe:
    """How fast a core was beside the runs: what the program `peers/probe.rs` tells each time before them."""

    def __init__(self, program):
        self.program = program
        self.told = []

    def look(self):
        ran = subprocess.run([self.program], capture_output=True, text=True)
        try:
            self.told.append(float(ran.stdout))
        except ValueError:
            raise Failed(f"{self.program} wrote '{ran.stdout}'") from None

    def write(self):
        """Writes one line: a core of one's own takes the least, and a shared one about twice that."""
        best = min(self.told)
        middle, most = (it / best for it in (statistics.median(self.told), max(self.told)))
        print(f"the core: a loop that waits for nothing took {best:.2f} ns a turn at best, {middle:.2f} times that in the middle "
              f"and {most:.2f} times at most", flush=True)


def mebibytes(kibibytes):
    return f"{kibibytes / 1024:.1f} MiB"


def figures(launch, runs):
    """One run of a program that tells its figures, or one after another with other words each: the figures by label, and the
    most memory."""
    found, most = {}, 0
    for words in runs:
        _, memory, out = run(launch, words)
        most = max(most, memory)
        for line in out.read().decode().splitlines():
            label, figure = figure_of(words[0], line)
            if label in found:
                raise Failed(f"{words[0]} gave two figures of '{label}'")
            found[label] = figure
    return found, most


def figure_of(program, line):
    """The label and the figure of a line."""
    match = LINE.fullmatch(line)
    if not match:
        raise Failed(f"{program} wrote '{line}'")
    label, took, unit, times, answer = match.groups()
    if int(took) == 0 or int(times) == 0:
        raise Failed(f"{program} gave no figure of '{label}'")
    work = "-" if answer == "-" else f"{times} times, answer {answer}"
    return label, Figure(int(took) / int(times), unit, work)


def compare(launch, probe, programs, rounds):
    """Runs the programs in turn, ours first, and writes how each peer compares with ours. A program is a name, and the words of
    each of its runs."""
    probe = Probe(probe)
    rows = {name: [] for name, _ in programs}
    memory = {name: 0 for name, _ in programs}
    for _ in range(rounds):
        for name, runs in programs:
            probe.look()
            found, most = figures(launch, runs)
            memory[name] = max(memory[name], most)
            rows[name].append(found)
            check_same_work(rows["ours"][0], found, name)
    alone = {*rows["ours"][0]}
    for name, _ in programs[1:]:
        alone -= rows[name][0].keys()
        for unit in ("ns", "bytes"):
            table = table_of(rows, name, unit)
            if table:
                print(f"{name}: best and middle of {rounds} rounds in turn, {unit} each")
                write_table(table)
    for label in sorted(alone):
        took = [it[label].each for it in rows["ours"]]
        print(f"ours alone, {label}: middle {told(statistics.median(took))}, best {told(min(took))}")
    memories = ", ".join(f"{name} {mebibytes(it)}" for name, it in memory.items())
    print(f"most memory: {memories}")
    probe.write()


def table_of(rows, name, unit):
    """What all runs of ours and of a peer took, by label, of the labels with this unit that both have."""
    labels = [label for label, it in rows["ours"][0].items() if it.unit == unit and label in rows[name][0]]
    return {label: [[it[label].each for it in rows[side]] for side in ("ours", name)] for label in labels}


def check_same_work(ours, theirs, name):
    """Ours and a peer must have done the same work, that many times, with the same outcome."""
    if not theirs.keys() <= ours.keys():
        raise Failed(f"{name} gave a figure that ours does not have: {sorted(theirs.keys() - ours.keys())}")
    for label, figure in theirs.items():
        if figure[1:] != ours[label][1:]:
            raise Failed(f"{label}: ours {ours[label].work}, {name} {figure.work}")


def write_table(table, unit=""):
    """Writes a row for each label, as Markdown; a value is what all runs of ours and of the peer took. The middle ratio is that of
    the rounds' ratios: the two runs of a round follow one another, so a machine whose speed changes slows both."""
    print("| what | ratio, middle | ratio, best | ours, middle | ours, best | peer, middle | peer, best |")
    print("|---|---|---|---|---|---|---|")
    for label, (ours, peer) in table.items():
        middles = statistics.median(ours), statistics.median(peer)
        bests = min(ours), min(peer)
        cells = [shown(statistics.median(map(ratio, ours, peer))), shown(ratio(*bests))]
        for side in (0, 1):
            cells += [told(middles[side]) + unit, told(bests[side]) + unit]
        print(f"| {label} | {' | '.join(cells)} |")
    print(flush=True)


def ratio(ours, peer):
    return ours / peer


def shown(value):
    return f"{value:.2f}" if value >= 0.1 else f"{value:.4f}"


def told(value):
    return f"{value:,.0f}" if value >= 100 else f"{value:.1f}"
