"""The toolchain's kit, for the tools: its own command as a module, the crates that it reads, and their functions.

This is the one file that loads private parts of the kit. NEEDED says which names of them the tools use and what for. The kit's commands do
none of it at the same price: `rt must-fail` checks a crate once for each edit, where tools/mutants tries all of a crate in one check.
"""
import functools
import hashlib
import importlib.machinery
import importlib.util
import os
import subprocess
import sys
import tempfile
import threading
import types

TOP = os.path.dirname(os.path.dirname(os.path.realpath(__file__)))
# Where what came of earlier runs is kept.
CACHE = f"{os.environ.get('XDG_CACHE_HOME') or os.path.expanduser('~/.cache')}/sapyguendo/checked"
# (what some fifty states of the repository need)
KEPT_AT_MOST = 10_000
# Held while libraries are built.
BUILDING = threading.Lock()
# Of each file of the kit the names that the tools use, and what for.
NEEDED = {
    "bin/rt": {
        "Crate": "knows a crate's folder, what is below it, and the words of its check",
        "handles_of": "reads HANDLES, which the check of a crate is given",
        "kit_sum": "tells one kit from another, so that what passed is kept for this one",
        "main": "runs `rt try` without the check that it begins beside the run",
        "read_edit": "applies the file of a mutant to the text of a crate",
        "rtlib": "is what the kit's commands share",
        "stamp_of": "sums up all that the check of a crate rests on",
    },
    "bin/rt's rtlib": {
        "PARTS": "names the folders of a crate that a copy needs",
        "RATTLE": "is the compiler's command",
        "crates_below": "reads crates.txt",
        "guarded": "limits the memory of a check",
        "lock": "keeps other runs of the kit away from the crates",
    },
    "bin/rt-plant-bodies": {"Source": "finds the functions of a crate, and where their bodies are"},
}


def loaded(name, file):
    """A module of the kit, from a file whose name does not end in .py."""
    if not os.path.isfile(file):
        sys.exit(f"tools/kit.py: this kit has no {file}, and the tools use its {', '.join(NEEDED['bin/' + os.path.basename(file)])}")
    loader = importlib.machinery.SourceFileLoader(name, file)
    spec = importlib.util.spec_from_loader(name, loader)
    module = importlib.util.module_from_spec(spec)
    loader.exec_module(module)
    return module


@functools.lru_cache(None)
def kit():
    """The kit's own command, which knows how a crate is checked, and its reader of functions."""
    page = subprocess.run(["rt", "doc"], capture_output=True, text=True, check=True).stdout.strip()
    folder = os.path.dirname(page)
    rt = loaded("rt_of_the_kit", f"{folder}/bin/rt")
    bodies = loaded("rt_plant_bodies", f"{folder}/bin/rt-plant-bodies")
    for (file, names), module in zip(NEEDED.items(), (rt, getattr(rt, "rtlib", None), bodies)):
        for name in names:
            if not hasattr(module, name):
                sys.exit(f"tools/kit.py: {file} of this kit has no `{name}`, which {names[name]}")
    rt.Crate.allowed = rt.handles_of(TOP)
    rt.rtlib.Crate = rt.Crate
    rt.rtlib.guarded()
    return types.SimpleNamespace(rt=rt, lib=rt.rtlib, bodies=bodies)


def text_of(file):
    """Returns the text of a file, or None if there is none."""
    try:
        with open(file, encoding="utf-8", errors="replace") as it:
            return it.read()
    except OSError:
        return None


def checksum(files, *more):
    """Of the kit, these files, and what else a run rests on."""
    return hashlib.sha256(repr((kit().rt.kit_sum(), [text_of(it) for it in files], more)).encode())


def keep(name, text):
    """Keeps a text under this name. (If it can't be kept, the next run does all again.)"""
    try:
        os.makedirs(CACHE, exist_ok=True)
        with tempfile.NamedTemporaryFile("w", dir=CACHE, delete=False, encoding="utf-8") as it:
            it.write(text)
        os.replace(it.name, f"{CACHE}/{name}")
        files = [f"{CACHE}/{it}" for it in os.listdir(CACHE)]
        for file in sorted(files, key=os.path.getmtime)[:-KEPT_AT_MOST] if len(files) > KEPT_AT_MOST else ():
            os.remove(file)
    except OSError as error:
        print(f"nothing is kept: {error}")


def kept(name):
    """Returns the text that is kept under this name, or None."""
    try:
        os.utime(f"{CACHE}/{name}")
        return text_of(f"{CACHE}/{name}")
    except OSError:
        return None


def names_in(words):
    """The last names of the paths in a type."""
    return [it for it, then in zip(words, [*words[1:], ""]) if it.isidentifier() and then != ":"]


def source_of(crate):
    """The functions of a crate. A type's own are named for the module of the type, wherever they stand."""
    source = kit().bodies.Source(crate.folder)
    source.read("src/main.rt" if crate.is_program else "src/lib.rt")
    for f in source.functions:
        homes = {module for module, *_ in source.declared.get(f.owner, [])} if f.block and not f.in_trait else set()
        if len(homes) == 1:
            f.module = homes.pop()
    return source


def path_of(f):
    """The check's name for a function, below the crate."""
    owner = f.owner
    if f.in_trait:
        # (a trait's own function is named for the trait alone)
        words = f.block.trait if f.block.is_trait else [*f.block.ty, *f.block.trait]
        # (and one of a type of the language with a great letter, as BoolSpelled)
        owner = "".join(it[0].upper() + it[1:] for it in names_in(words) if it not in f.block.generics)
    elif f.block:
        # (a block for some arguments of its type alone is named for them, too, as HandleOf+N+Desk)
        names = names_in(f.block.ty)
        owner = owner if {*names[1:]} <= {*f.block.generics} else "+".join(names)
    return "::".join([*f.module, *[owner] * bool(f.block), f.name])


def bodies_to_leave_out(source, kept):
    """The functions that the mutants are judged without, but for these. One within another goes with it."""
    end = {}
    for f in sorted(source.functions, key=lambda it: (it.file, it.first)):
        is_declared = f.in_trait and f.block.is_trait
        if f.has_body and not is_declared and not f.in_cycle and path_of(f) not in kept and f.first >= end.get(f.file, 0):
            end[f.file] = f.end
            yield f


def is_current(library):
    """Whether a library is what a build of the sources that are there has left."""
    stamps = [text_of(f"{library.folder}/out/{it}") for it in ("rlib/stamp", "built")]
    return os.path.isdir(library.rlib) and library.stamp() in stamps


def note_built(crates):
    """Notes of what these libraries were built, right after `rt ci`, which leaves them without a stamp."""
    for crate in crates:
        if os.path.isdir(crate.rlib):
            with open(f"{crate.folder}/out/built", "w", encoding="utf-8") as it:
                it.write(crate.stamp())


def has_libraries(crate):
    """Builds the libraries below a crate, where they do not lie as a build of what is there has left them."""
    # (crates that are tried at a time have some of them in common)
    with BUILDING:
        return all(is_current(it) or build(it) for it in reversed(crate.below()))


def build(library):
    """Builds a library. Returns whether it is built, and shows why if it can't be."""
    print(f"building {library.name}", flush=True)
    with tempfile.TemporaryFile("w+", errors="replace") as library.out:
        failed = library.build_rlib(["--jobs", "1"], anew=False)
        library.out.seek(0)
        print(library.out.read()[-3000:] if failed else "", end="")
    return not failed


def main(words):
    """Does what `rt try` does, without the check that this begins beside the run, for a hint alone."""
    kit().lib.RATTLE = "true"
    return kit().rt.main(["try", *words])


if __name__ == "__main__":
    sys.exit(main(sys.argv[1:]))
