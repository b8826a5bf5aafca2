"""Builds our programs, on a copy of the repository whose work is kept, and their peers."""
import os
import re
import shutil
import subprocess

from measure import Failed

HERE = os.path.dirname(os.path.abspath(__file__))
TOP = os.path.dirname(HERE)
CACHE = os.environ.get("XDG_CACHE_HOME") or os.path.expanduser("~/.cache")
# Outside of the repository, in which the gate wants no second list of crates. A copy of the repository has a room of its own.
ROOM = f"{CACHE}/sapyguendo-bench{TOP.replace('/', '-')}"

# What each of our programs uses: a line of crates.txt.
USES = {
    "step": "sup_types sup_core linked_list_allocator",
    "log": "sup_types sup_core sup_log left_right core",
    "desk": "sup_types sup_desk",
    "journal": "sup_types sup_desk sup_journal",
    "inbox": "sup_types sup_inbox crossbeam_queue atomic_table",
    "crew": "sup_types sup_desk sup_crew",
    "live": "sup_types sup_live futures anyhow",
    "tcp": "sup_types sup_journal sup_live futures tokio tokio_util anyhow",
}

# The words that our program is given as `rt run` runs it, once it is built.
WORDS = {"live": ["1000"]}


def said(words, folder, log):
    """Runs a build. What it says goes to the log, of which the end is shown if it fails."""
    with open(log, "wb") as file:
        ran = subprocess.run(words, cwd=folder, stdin=subprocess.DEVNULL, stdout=file, stderr=file)
    if ran.returncode != 0:
        with open(log, errors="replace") as file:
            raise Failed(f"{' '.join(words)} failed:\n{''.join(file.readlines()[-20:])}")


def lines_of_crates():
    """The line of each crate of the repository, by its name."""
    with open(f"{TOP}/crates.txt") as file:
        lines = [it.strip() for it in file if ":" in it and not it.startswith("#")]
    return {re.split(r"[ :]", it)[0]: it for it in lines}


def below(uses, lines, found):
    """Adds the repository's crates that these words name, and those that they use, lowest first."""
    for name in uses.split():
        if name in lines and name not in found:
            below(lines[name].split(":")[1], lines, found)
            found.append(name)
    return found


def copy_crate(name):
    """Brings one crate up to date; what was proved of it here stays, or else comes along from the repository."""
    to = f"{ROOM}/crates/{name}"
    for part in ("src", "specs", "proofs"):
        shutil.rmtree(f"{to}/{part}", ignore_errors=True)
        if os.path.isdir(f"{TOP}/crates/{name}/{part}"):
            shutil.copytree(f"{TOP}/crates/{name}/{part}", f"{to}/{part}")
    for part in ("incremental", "rlib"):
        kept = f"{TOP}/crates/{name}/out/{part}"
        if os.path.isdir(kept) and not os.path.isdir(f"{to}/out/{part}"):
            shutil.copytree(kept, f"{to}/out/{part}")


def copy_ours(name):
    """Copies our program as a crate, each file without its ending .txt."""
    to = f"{ROOM}/crates/bench_{name}"
    source, inside = (f"{TOP}/tools/partners/tcp_server", f"{to}/src") if name == "tcp" else (f"{HERE}/crates/{name}", to)
    for part in ("src", "proofs"):
        shutil.rmtree(f"{to}/{part}", ignore_errors=True)
    for at, _, files in os.walk(source):
        for file in files:
            there = os.path.join(inside, os.path.relpath(at, source), file.removesuffix(".txt"))
            os.makedirs(os.path.dirname(there), exist_ok=True)
            shutil.copyfile(f"{at}/{file}", there)
    return to


def ours(name):
    """Proves and builds our program; returns the words that run it."""
    if not shutil.which("rt"):
        raise Failed("the toolchain's command 'rt' is not on the PATH")
    lines = lines_of_crates()
    needed = below(USES[name], lines, [])
    os.makedirs(f"{ROOM}/crates", exist_ok=True)
    for it in needed:
        copy_crate(it)
    crate = copy_ours(name)
    with open(f"{ROOM}/HANDLES", "w") as file:
        file.write("Handles allowed: Threads, Wait, Net.\n")
    with open(f"{ROOM}/crates.txt", "w") as file:
        for it in needed:
            file.write(f"{lines[it]}\n")
        file.write(f"bench_{name}: {USES[name]}\n")
    # (so that this folder is the top of a repository)
    subprocess.run(["git", "init", "-q"], cwd=ROOM, check=True)
    run = ["rt", "run", "--jobs", os.environ.get("BENCH_JOBS", "2"), "--", *WORDS.get(name, [])]
    # (a server ends when its clients say so)
    said([plain("tcp_load"), *run] if name == "tcp" else run, crate, f"{ROOM}/{name}.log")
    return [f"{crate}/out/bench_{name}"]


def supload():
    """The program that `./supload` runs for a script or a history, which `./supload prove` builds at its first use."""
    os.makedirs(ROOM, exist_ok=True)
    said([f"{TOP}/supload", "prove"], TOP, f"{ROOM}/supload.log")
    return f"{TOP}/crates/sup_text/out/sup_text"


def plain(name):
    """The same work in plain Rust."""
    os.makedirs(f"{ROOM}/peers", exist_ok=True)
    program = f"{ROOM}/peers/{name}"
    said(["rustc", "-O", "-o", program, f"{HERE}/peers/{name}.rs"], HERE, f"{ROOM}/{name}_plain.log")
    return program


def peers(name):
    """The peers of a name: what each is called, and the words that run it."""
    made = [("plain Rust", [plain(name)])]
    if name in ("crew", "live", "tcp"):
        made += erlang(name)
    return made


def erlang(name):
    """OTP's own supervisor, where Erlang is installed."""
    if not (shutil.which("erl") and shutil.which("erlc")):
        print("Erlang's supervisor is left out: no `erl` is installed")
        return []
    said(["erlc", "-o", f"{ROOM}/peers", f"{HERE}/peers/{name}.erl"], HERE, f"{ROOM}/{name}_erl.log")
    return [("Erlang", ["erl", "-noshell", "-pa", f"{ROOM}/peers", "-s", name, "main"])]
