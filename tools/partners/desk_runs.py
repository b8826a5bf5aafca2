"""How a round over one desk is run: by the program of desk/, which is kept under other endings, since what it writes differs
from run to run, so that it is no crate of the gate. It is proved and built on a copy of the crates that it needs."""
import contextlib
import os
import re
import shutil
import subprocess
import tempfile

import runs

SECONDS = 60
CRATES = ("sup_types", "sup_window", "sup_core", "sup_format", "sup_script", "sup_log", "sup_desk", "sup_journal")
SOURCES = f"{runs.HERE}/desk"
BUILT = f"{SOURCES}/out/desk_stress"


class Ended(Exception):
    """The program ended otherwise than it should."""


def program():
    """The path of the program: DESK_STRESS of the environment, or the one that is built at first use."""
    given = os.environ.get("DESK_STRESS")
    if given:
        if not os.access(given, os.X_OK):
            raise runs.Missing(f"DESK_STRESS names no program: {given}")
        return os.path.abspath(given)
    if not is_current():
        build()
    return BUILT


def is_current():
    """Whether the program was built after the last change of what it is made of."""
    if not os.access(BUILT, os.X_OK):
        return False
    built = os.path.getmtime(BUILT)
    folders = [SOURCES, *(f"{runs.TOP}/crates/{it}" for it in CRATES)]
    return all(os.path.getmtime(it) <= built for folder in folders for it in sources_of(folder))


def sources_of(folder):
    for place, folders, files in os.walk(folder):
        folders[:] = [it for it in folders if it != "out"]
        yield from (f"{place}/{it}" for it in files if it.endswith((".rt", ".antt", ".txt")))


def build():
    """Proves and builds the program, over what the crates have built before."""
    if not shutil.which("rt"):
        raise runs.Missing("the toolchain's command rt is not on the PATH; DESK_STRESS=PATH names a built program")
    runs.say("stress: proving and building the program; at first use this takes some minutes, and longer where no crate is built")
    with tempfile.TemporaryDirectory(prefix="partners-") as room:
        copy_crates(room)
        ran = subprocess.run(["rt", "run", "--jobs", "1", "--", "0"], cwd=f"{room}/crates/desk_stress", stdin=subprocess.DEVNULL,
                             stdout=subprocess.DEVNULL, stderr=subprocess.PIPE, check=False)
        if ran.returncode != 0:
            raise runs.Missing(f"the program could not be built: {ran.stderr.decode(errors='replace')[-2000:]}")
        os.makedirs(os.path.dirname(BUILT), exist_ok=True)
        shutil.copy(f"{room}/crates/desk_stress/out/desk_stress", f"{BUILT}.new")
        os.replace(f"{BUILT}.new", BUILT)


def place_of(file):
    """Where a source file of a program, or a proof file of the function that it is named after, lies in the program's crate."""
    name = file.removesuffix(".txt")
    return f"src/{name}" if name.endswith(".rt") else f"proofs/{name.removesuffix('.antt')}/Invariants.antt"


def copy_crates(room, *left_out):
    """Copies the crates that the program needs, and writes its own beside them."""
    copy_program(room, CRATES, SOURCES, "desk_stress: sup_types sup_log sup_desk sup_journal sup_script", *left_out)


def copy_program(room, crates, sources, line, *left_out):
    """Copies these crates, and makes one of the sources beside them, with its line of crates.txt."""
    for crate in crates:
        shutil.copytree(f"{runs.TOP}/crates/{crate}", f"{room}/crates/{crate}", ignore=shutil.ignore_patterns(*left_out))
    for file in (it for it in os.listdir(sources) if it.endswith(".txt")):
        place = f"{room}/crates/{line.partition(':')[0]}/{place_of(file)}"
        os.makedirs(os.path.dirname(place), exist_ok=True)
        shutil.copy(f"{sources}/{file}", place)
    shutil.copy(f"{runs.TOP}/HANDLES", room)
    with open(f"{runs.TOP}/crates.txt", encoding="utf-8") as crates_file:
        below = [it for it in crates_file if re.split("[ :]", it)[0] in crates]
    with open(f"{room}/crates.txt", "w", encoding="utf-8") as it:
        it.writelines([*below, f"{line}\n"])


def records_of_wrong(crate, mutant, seeds):
    """What rounds with these seeds record over a desk into which a mutant of a crate was put, by their seeds; None for one that
    does not end as it should."""
    with wrong_desk(crate, mutant) as room:
        ran = tried(room, mutant, {seed: [seed] for seed in seeds})
        return {seed: out if status == 0 else None for seed, (out, status) in ran.items()}


@contextlib.contextmanager
def wrong_desk(crate, mutant):
    """A folder with the program and the crates that it needs, into one of which a mutant was put."""
    with tempfile.TemporaryDirectory(prefix="partners-") as room:
        copy_crates(room, "out", "mutants")
        put_in(f"{room}/crates/{crate}", f"{runs.TOP}/crates/{crate}/mutants/{mutant}.edit")
        yield room


def tried(room, mutant, words_of):
    """Runs the program in a folder with these words for each seed: what it writes, and its status or None, by the seeds. The prover
    refuses such a desk, so it is built without a proof, with the checks of `rt try`."""
    with tempfile.TemporaryDirectory(prefix="partners-") as cases:
        for seed, words in words_of.items():
            open(f"{cases}/{seed}", "w", encoding="utf-8").close()
            with open(f"{cases}/{seed}.args", "w", encoding="utf-8") as it:
                it.writelines(f"{word}\n" for word in words)
        ran = subprocess.run(["rt", "try", "--cases", cases], cwd=f"{room}/crates/desk_stress", stdin=subprocess.DEVNULL,
                             capture_output=True, check=False)
    out, said = (it.decode(errors="replace") for it in (ran.stdout, ran.stderr))
    if not re.search("^cases=", said, re.M):
        raise runs.Missing(f"{mutant}: the program could not be built: {said[-1000:]}")
    ended = dict(re.findall("^case=([0-9]+) run=ended status=([0-9]+)", said, re.M))
    parts = re.split("^== ([0-9]+)\n", out, flags=re.M)[1:]
    told = dict(zip(parts[::2], parts[1::2]))
    return {seed: (told.get(str(seed), ""), int(ended[str(seed)]) if str(seed) in ended else None) for seed in words_of}


def put_in(folder, edit):
    """Makes the changes of a mutant in the copy of its crate."""
    with open(edit, encoding="utf-8") as it:
        lines = it.read().rstrip("\n").split("\n")
    file = f"{folder}/{lines[0].removeprefix('file: ')}"
    with open(file, encoding="utf-8") as it:
        text = it.read()
    for old, new in zip(lines[1::2], lines[2::2]):
        text = text.replace(old.removeprefix("old: "), new.removeprefix("new: "))
    with open(file, "w", encoding="utf-8") as it:
        it.write(text)


def record(path, seed):
    """What the threads of a round with this seed recorded."""
    try:
        ran = subprocess.run([path, str(seed)], capture_output=True, timeout=SECONDS, cwd="/", check=False)
    except subprocess.TimeoutExpired:
        raise Ended(f"the round of seed {seed} did not end within {SECONDS} seconds") from None
    if ran.returncode != 0 or ran.stderr:
        raise Ended(f"the round of seed {seed} ended with status {ran.returncode}: {ran.stderr.decode(errors='replace')}")
    return ran.stdout.decode()
