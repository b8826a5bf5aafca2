"""Draws README's picture, docs/benchmarks.svg, from the tables of docs/BENCHMARKS.md."""
import math
import re
from pathlib import Path
from xml.sax.saxutils import escape

DOCS = Path(__file__).resolve().parent.parent / "docs"
PICTURE = DOCS / "benchmarks.svg"

# What is drawn: the section, the row of its table, and what the picture calls it.
ROWS = (
    ("The shared supervisor", "count, 1 thread, 16 handles", "count the children, 1 thread"),
    ("The shared supervisor", "count, 4 threads, 16 handles", "count the children, 4 threads"),
    ("The shared supervisor", "update among 65,504 rows, 2 handles", "update of a desk for 2 handles"),
    ("Steps", "restart among 65,535 rows", "restart among 65,535, one thread"),
    ("The crew", "child, 4 workers, 0 readers", "worker crew: child, from start to exit"),
    ("The live crew", "start, one at a time", "live child: start, one at a time"),
    ("The live crew", "start, all at once", "live child: start, 65,536 at once"),
    ("The live crew", "message and answer", "live child: message and answer"),
    ("The live crew", "message, until all are heard", "live child: message, to all at once"),
    ("The live crew", "crash and restart, one at a time", "live child: crash until restarted"),
    ("The live crew", "memory of an idle child", "live child: memory while idle"),
    ("A server of connections", "message and answer, 1,000 open, ns", "TCP connection: message and answer"),
    ("Scripts and replays", "script, 16 MiB, 692,852 lines, 60,000 alive", "script of 16 MiB"),
)
PEERS = {"plain Rust": "#1f6fb4", "OTP 25": "#c2571a"}
LOW, HIGH = 0.05, 8.0
LEFT, RIGHT, TOP, STEP = 280, 60, 60, 26
WIDTH = 860


class Lacking(Exception):
    """A table or a row that is not there."""


def ratios():
    """The ratios of each row, by peer."""
    sections = dict(re.findall(r"(?ms)^## (.*?)\n(.*?)(?=^## |\Z)", (DOCS / "BENCHMARKS.md").read_text(encoding="utf-8")))
    for section, row, called in ROWS:
        tables = [[it.strip() for it in line.strip("| ").split("|")] for line in sections.get(section, "").splitlines() if line.startswith("|")]
        found = [it for it in tables if it[0] == row]
        if len(found) != 1:
            raise Lacking(f"BENCHMARKS.md has {len(found)} rows '{row}' in '{section}'")
        columns = {("OTP 25" if it.startswith("OTP") else "plain Rust"): place for place, it in enumerate(tables[0]) if it.endswith("ratio")}
        yield called, {peer: float(found[0][columns[peer]]) for peer in PEERS if peer in columns}


def x_of(value):
    """Where a ratio is, on a scale of logarithms."""
    return LEFT + (WIDTH - LEFT - RIGHT) * (math.log(value) - math.log(LOW)) / (math.log(HIGH) - math.log(LOW))


def text(x, y, words, anchor="start", fill="#222", size=13):
    return f'<text x="{x:.0f}" y="{y:.0f}" text-anchor="{anchor}" fill="{fill}" font-size="{size}">{escape(words)}</text>'


def picture():
    """The picture, as a text."""
    rows = list(ratios())
    bottom = TOP + STEP * len(rows)
    lines = [text(10, 24, "What Sapyguendo takes, divided by what the other takes: left of 1 is less", size=15)]
    for place, (peer, colour) in enumerate(PEERS.items()):
        lines += [f'<circle cx="{LEFT + 320 + place * 120}" cy="41" r="5" fill="{colour}"/>', text(LEFT + 330 + place * 120, 46, peer, fill=colour)]
    for tick in (0.05, 0.1, 0.2, 0.5, 1, 2, 5):
        dashes = '' if tick == 1 else ' stroke-dasharray="2 4"'
        lines.append(f'<line x1="{x_of(tick):.0f}" y1="{TOP}" x2="{x_of(tick):.0f}" y2="{bottom}" stroke="#999"{dashes}/>')
        lines.append(text(x_of(tick), bottom + 18, f"{tick:g}", "middle", "#555", 12))
    for place, (called, found) in enumerate(rows):
        y = TOP + STEP * place + STEP / 2
        lines.append(text(LEFT - 12, y + 4, called, "end"))
        for peer, value in found.items():
            # (the smaller of two has its number on its left)
            is_left = len(found) > 1 and value == min(found.values())
            lines.append(f'<circle cx="{x_of(max(value, LOW)):.0f}" cy="{y:.0f}" r="5" fill="{PEERS[peer]}"/>')
            lines.append(text(x_of(max(value, LOW)) + (-9 if is_left else 9), y + 4, f"{value:.2f}", "end" if is_left else "start", PEERS[peer], 12))
    head = (f'<svg xmlns="http://www.w3.org/2000/svg" viewBox="0 0 {WIDTH} {bottom + 30}" font-family="sans-serif">'
            f'<rect width="{WIDTH}" height="{bottom + 30}" fill="#fff"/>')
    return "\n".join([head, *lines, "</svg>", ""])


def run(only_checks):
    """Writes the picture, or says whether it is what the tables say; returns the exit status."""
    drawn = picture()
    if not only_checks:
        PICTURE.write_text(drawn, encoding="utf-8")
    same = PICTURE.exists() and PICTURE.read_text(encoding="utf-8") == drawn
    if not same:
        print("bench/run: docs/benchmarks.svg is not what docs/BENCHMARKS.md says: bench/run --plot")
    print(f"plot: {len(ROWS) if same else 0} passed, {0 if same else 1} failed")
    return 0 if same else 1
