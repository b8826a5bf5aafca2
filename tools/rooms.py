"""Rooms for tools/launcher: copies of what the launcher `./supload` reads, in which a stand-in takes the place of the toolchain's `rt`."""
import contextlib
import os
import pty
import re
import resource
import select
import shutil
import signal
import subprocess
import time

TOP = os.path.dirname(os.path.dirname(os.path.realpath(__file__)))
# How long a run may take: one that hangs is ended with all that it began.
SECONDS = 60
# What the launcher and the stand-in may call: no other `rt` is among it.
NAMES = "awk bash cat chmod find flock grep head mkdir mktemp nproc readlink rm sh sleep tail"
COMMANDS = {it: shutil.which(it) for it in NAMES.split()}
# The line that comes before an answer of a checked build.
FIRST = re.compile("supload: this answer is not proved: .* checked while it runs, made anew at each call.*; (./supload prove.*) proves the program, in .*\n")
BUILDING = re.compile("supload: (proving and building|crate) ")


def write(file, text, mode=0o644):
    os.makedirs(os.path.dirname(file), exist_ok=True)
    with open(file, "w", encoding="utf-8") as it:
        it.write(text)
    os.chmod(file, mode)


def needs(name):
    """Returns the crates that a program is built from, lowest first."""
    with open(f"{TOP}/crates.txt", encoding="utf-8") as it:
        rows = [line.split(":") for line in it if ":" in line and not line.startswith("#")]
    below = {head.split()[0]: names.split() for head, names in rows}
    found, open_ones = set(), [name]
    while open_ones:
        it = open_ones.pop()
        if it in below and it not in found:
            found.add(it)
            open_ones += below[it]
    return [it for it in below if it in found]


class Room:
    """A copy of what the launcher reads, at `top`, the stand-in, in `bin`, and a folder `at` in which it is called."""

    def __init__(self, folder, launcher):
        os.chmod(folder, 0o755)
        self.folder, self.top, self.at, self.tmp = folder, f"{folder}/tree", f"{folder}/at/a b", f"{folder}/tmp"
        for it in (self.top, self.at, self.tmp):
            os.makedirs(it)
        os.chmod(self.tmp, 0o777)
        shutil.copy(launcher, f"{self.top}/supload")
        shutil.copy(f"{TOP}/crates.txt", self.top)
        os.symlink(f"{TOP}/examples", f"{self.top}/examples")
        for crate in os.listdir(f"{TOP}/crates"):
            self.change(f"crates/{crate}/src/lib.rt", 10)
            self.change(f"crates/{crate}/specs/Lib.antt", 10)
        self.change("crates.txt", 10)
        os.mkdir(f"{folder}/bin")
        shutil.copy(f"{TOP}/tools/stand_in", f"{folder}/bin/rt")
        for it, place in COMMANDS.items():
            os.symlink(place, f"{folder}/bin/{it}")
        self.log = f"{self.top}/crates/sup_text/out/build.log"

    def change(self, file, moment):
        """Makes a file one that was changed at this moment."""
        os.makedirs(os.path.dirname(f"{self.top}/{file}"), exist_ok=True)
        with open(f"{self.top}/{file}", "a", encoding="utf-8"):
            os.utime(f"{self.top}/{file}", (moment, moment))

    def program(self, moment, name="sup_text"):
        """Puts a program there that was made at this moment. The sources are of moment 10."""
        file = f"crates/{name}/out/{name}"
        write(f"{self.top}/{file}", '#!/bin/sh\nprintf "made:"; printf " [%s]" "$@"; echo\n', 0o755)
        self.change(file, moment)

    def begin(self, *words, by=None, by_another=False, limit=None, cwd=None, **more):
        """Begins a run of the launcher in a session of its own. `by` is the path that names it. It may be as another user, for whom
        modes count, and its files may be limited, as by a full disk."""
        streams = {it: more.pop(it, subprocess.PIPE) for it in ("stdin", "stdout", "stderr")}

        def become():
            if limit is not None:
                signal.signal(signal.SIGXFSZ, signal.SIG_IGN)
                resource.setrlimit(resource.RLIMIT_FSIZE, (limit, limit))
            if by_another and not os.getuid():
                os.setuid(65534)

        env = {"PATH": f"{self.folder}/bin", "LC_ALL": "C", "TMPDIR": self.tmp, **more}
        how = {"env": env, "cwd": cwd or self.at, "start_new_session": True, "preexec_fn": become, "restore_signals": False}
        return subprocess.Popen([by or f"{self.top}/supload", *words], **streams, **how)

    def run(self, *words, given=b"some text\n", **more):
        """Runs the launcher to its end, or ends it and what it began if that takes too long."""
        with self.begin(*words, **more) as ran:
            try:
                out, err = ran.communicate(given if ran.stdin else None, SECONDS)
            except subprocess.TimeoutExpired:
                os.killpg(ran.pid, signal.SIGKILL)
                out, err = ran.communicate()
        texts = [(it or b"").decode(errors="replace") for it in (out, err)]
        return subprocess.CompletedProcess(words, ran.returncode, *texts)

    def on_terminal(self, *words, **more):
        """Runs the launcher with a terminal as standard error, and returns it with what that shows."""
        ours, theirs = pty.openpty()
        said, end = b"", time.monotonic() + SECONDS
        with self.begin(*words, stderr=theirs, **{"stdin": subprocess.DEVNULL, **more}) as ran, contextlib.suppress(OSError):
            os.close(theirs)
            while select.select([ours], [], [], max(0, end - time.monotonic()))[0]:
                if not (some := os.read(ours, 4096)):
                    break
                said += some
            if time.monotonic() >= end:
                os.killpg(ran.pid, signal.SIGKILL)
        os.close(ours)
        return ran, said.decode()

    def litter(self):
        """Says what the launcher has left among the temporary files, if it has."""
        return f"it has left {found}" if (found := os.listdir(self.tmp)) else None

    def await_call(self):
        """Waits until the stand-in is called, and at most as long as a run may take."""
        end = time.monotonic() + SECONDS
        while not self.calls() and time.monotonic() < end:
            time.sleep(0.01)

    def calls(self):
        """Returns the calls of the stand-in: what it was to do, and in which crate."""
        with contextlib.suppress(FileNotFoundError), open(f"{self.folder}/bin/rt.calls", encoding="utf-8") as it:
            return it.read().splitlines()
        return []


def is_answer(room, ran, words, given="", status=5, crate="sup_text"):
    """What is wrong with a run that a checked build had to answer, by the words that the stand-in saw and what was given to it."""
    wanted = "tried:" + "".join(f" [{it}]" for it in words) + f"\n{given}"
    own = "run=ended status=9 runners=1 proved=no\nits own error\n"
    if (ran.returncode, ran.stdout, room.calls()) != (status, wanted, [f"try {crate}"]):
        return f"status {ran.returncode}, output {ran.stdout!r}, error {ran.stderr!r}, calls {room.calls()}"
    prover = "./supload prove" if crate == "sup_text" else "./supload prove all"
    if not (first := FIRST.match(ran.stderr)) or first[1] != prover or ran.stderr[first.end() :] != own:
        return f"error {ran.stderr!r}"
    return room.litter()


def is_failure(ran, *parts):
    """What is wrong with a run that had to fail by one line, after what it says of a build."""
    said = [it for it in ran.stderr.splitlines(True) if not BUILDING.match(it) and not FIRST.match(it)]
    if ran.returncode != 4 or ran.stdout or len(said) != 1 or not said[0].startswith("supload: "):
        return f"status {ran.returncode}, output {ran.stdout!r}, error {ran.stderr!r}"
    lacking = [it for it in parts if it not in said[0]]
    return f"{said[0]!r} lacks {lacking[0]!r}" if lacking else None


def is_just(room, ran, status, out, err, calls=()):
    """What is wrong with a run that had to be this alone."""
    found = (ran.returncode, ran.stdout, ran.stderr, room.calls())
    return None if found == (status, out, err, list(calls)) else repr(found)
