"""What the test command owes: how many tests, cases and mutants the repository has, by the lines of counts.txt.

A line there is a part of ./check, a name, and a number. A tool that counts otherwise says so and fails, so that nothing is lost unseen:
whoever adds or removes something changes its number. With --write a tool writes the numbers as they are.
"""
import os

FILE = f"{os.path.dirname(os.path.realpath(__file__))}/counts.txt"


def stored():
    """The stored numbers, by part and name."""
    with open(FILE, encoding="utf-8") as it:
        rows = [line.split() for line in it if not line.startswith("#")]
    return {(part, name): int(number) for part, name, number in rows}


def tell(parts, writes=False):
    """Compares the numbers of these parts, by name, with the stored ones, and returns how many are as stored and how many are not."""
    found = {(part, name): number for part, names in parts.items() for name, number in names.items()}
    wanted = {it: number for it, number in stored().items() if it[0] in parts}
    if writes:
        write(parts, found)
        return len(found), 0
    differ = [it for it in {**wanted, **found} if wanted.get(it, 0) != found.get(it, 0)]
    for part, name in differ:
        key = (part, name)
        print(f"{part}: {name}: there are {found.get(key, 0)}, and tools/counts.txt says {wanted.get(key, 0)}")
    for part, names in parts.items():
        print(f"{part}: {sum(names.values())} in {len(names)} places")
    return len({**wanted, **found}) - len(differ), len(differ)


def write(parts, found):
    """Writes the numbers of these parts in place of the stored ones."""
    with open(FILE, encoding="utf-8") as it:
        head, *lines = [line for line in it if line.split()[0] not in parts]
    lines += [f"{part} {name} {number}\n" for (part, name), number in found.items()]
    with open(FILE, "w", encoding="utf-8") as it:
        it.writelines([head, *sorted(lines)])
