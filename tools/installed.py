"""Checks of ffi/install and ffi/release for tools/ffi: what is installed and removed, pkg-config, CMake, the Debian package, and a release that
is used without the repository and the toolchain."""
import filecmp
import glob
import os
import re
import shutil
import subprocess
import sys

TOP = os.path.dirname(os.path.dirname(os.path.realpath(__file__)))
FFI = f"{TOP}/ffi"
SECONDS = 300
INSTALLED = ("include/sapyguendo.h LIB/cmake/sapyguendo/sapyguendo-config-version.cmake LIB/cmake/sapyguendo/sapyguendo-config.cmake "
             "LIB/libsapyguendo.a LIB/libsapyguendo.so LIB/libsapyguendo.so.0 LIB/libsapyguendo.so.VERSION LIB/pkgconfig/sapyguendo.pc "
             "share/doc/sapyguendo/FORMATS.md share/doc/sapyguendo/LICENSE share/doc/sapyguendo/SUPERVISOR.md share/man/man3/sapyguendo.3")
CMAKE = """cmake_minimum_required(VERSION 3.13)
project(user C)
find_package(sapyguendo 0 REQUIRED)
add_executable(shared FILE)
target_link_libraries(shared sapyguendo::sapyguendo)
add_executable(fixed FILE)
target_link_libraries(fixed sapyguendo::static)
"""
SCRIPT = b"sup permanent worker 1 5 10\nstart 0 a\nexit 1 1 crash\nwhich\nstop 2\n"
ANSWER = b"ok 1\nrestarted 1 2\nchild 2 running a\nend 1\nstopped\n"
# What a user without the repository and the toolchain does with a release: the commands of its README, and the callers.
USER = """set -eu
[ -z "$HIDES" ] || mount -t tmpfs none "$TOP"
if command -v rt; then echo "rt is there"; exit 1; fi
tar xzf "$RELEASE"
cd sapyguendo-*/
sha256sum --quiet -c SHA256SUMS
COMMANDS
cc -D_GNU_SOURCE examples/script.c -I ~/.local/include ~/.local/lib/libsapyguendo.a -o script
answers() { "$@" <"$ROOM/script" >"$ROOM/answer"; cmp "$ROOM/answer" "$ROOM/wanted"; }
answers ./script "$ROOM/history"
for SAPYGUENDO_CTYPES in "" 1; do export SAPYGUENDO_CTYPES; answers python3 -B examples/script.py "$ROOM/history"; done
[ -z "$CARGO" ] || answers cargo run --quiet --manifest-path rust/Cargo.toml --example script "$ROOM/history"
./install --uninstall ~/.local
"""
CHECKS = 10 + bool(shutil.which("pkg-config")) + bool(shutil.which("cmake")) + bool(shutil.which("dpkg-deb")) + bool(shutil.which("cargo"))


def ran(words, given=b"", **more):
    return subprocess.run(words, input=given, stdout=subprocess.PIPE, stderr=subprocess.STDOUT, timeout=SECONDS, check=False, **more)


def why(it, wanted=0):
    return None if it.returncode == wanted else f"status {it.returncode}: {it.stdout.decode(errors='replace')[-1500:]}"


def listed(folder):
    """The files and links below a folder."""
    return sorted(os.path.relpath(f"{at}/{it}", folder) for at, _, files in os.walk(folder) for it in files)


def try_installs(tally, room, library):
    """All of it, with what was installed in a folder."""
    first, again = f"{room}/release", f"{room}/again"
    tally.check("the version in all places", why(ran([f"{TOP}/tools/version"])))
    if not tally.check("ffi/release", why(ran([f"{FFI}/release", first, library]))):
        return
    ran([f"{FFI}/release", again, library])
    names = sorted(os.listdir(first))
    same = names == sorted(os.listdir(again)) and filecmp.cmpfiles(first, again, names, shallow=False)[0] == names
    tally.check("two releases", None if same else "their bytes differ")
    tally.check("the checksums", why(ran(["sha256sum", "--quiet", "-c", "SHA256SUMS"], cwd=first)))
    (archive,) = glob.glob(f"{first}/*.tar.gz")
    shutil.unpack_archive(archive, f"{room}/tree")
    (tree,) = glob.glob(f"{room}/tree/*")
    version = tree.split("-")[-1]
    try_places(tally, room, tree, version)
    try_links(tally, room, tree)
    if shutil.which("dpkg-deb"):
        (package,) = glob.glob(f"{first}/*.deb")
        unpacked = ran(["dpkg-deb", "-x", package, f"{room}/deb"])
        wanted = INSTALLED.replace("LIB", "lib/x86_64-linux-gnu").replace("VERSION", version).split()
        tally.check("the Debian package", why(unpacked) or (None if listed(f"{room}/deb/usr") == sorted(wanted) else str(listed(f"{room}/deb"))))
    if shutil.which("cargo"):
        env = {**os.environ, "CARGO_TARGET_DIR": f"{room}/target"}
        packed = ran(["cargo", "package", "--offline", "--allow-dirty"], cwd=f"{tree}/rust", env=env)
        tally.check("cargo package", why(packed) or ("it warns: " + packed.stdout.decode() if b"warning" in packed.stdout else None))
    tally.check("a release without the repository", used(room, archive))


def try_places(tally, room, tree, version):
    """DESTDIR, another folder for libraries, what is removed, and wrong words."""
    env = {**os.environ, "DESTDIR": f"{room}/staged"}
    words = ["--libdir", "lib64", "/usr/my prefix"]
    why_not = why(ran([f"{tree}/install", *words], env=env))
    found, wanted = listed(f"{room}/staged/usr/my prefix"), sorted(INSTALLED.replace("LIB", "lib64").replace("VERSION", version).split())
    tally.check("what is installed", why_not or (None if found == wanted else f"{found}, and not {wanted}"))
    with open(f"{room}/staged/usr/my prefix/lib64/pkgconfig/sapyguendo.pc", encoding="utf-8") as it:
        tally.check("its own prefix", None if "prefix=/usr/my prefix\n" in it.read() else "the prefix has DESTDIR in it")
    why_not = why(ran([f"{tree}/install", "--uninstall", *words], env=env))
    tally.check("what is removed", why_not or (f"{listed(f'{room}/staged')} remain" if listed(f"{room}/staged") else None))
    wrong = ([], ["--libdir"], ["--libdir", "/lib", "x"], ["--libdir", "../lib", "x"], ["x", "y"], ["--other", "x"], [""])
    statuses = [ran([f"{tree}/install", *it], cwd=room).returncode for it in wrong]
    tally.check("wrong words", None if statuses == [2] * len(wrong) else f"their statuses are {statuses}")
    tally.check("a folder that can't be written", why(ran([f"{tree}/install", f"{tree}/LICENSE/x"]), 3))


def try_links(tally, room, tree):
    """pkg-config and CMake, below a prefix with a space, in no path of the loader."""
    prefix, program = f"{room}/my prefix", f"{FFI}/examples/script.c"
    ran([f"{tree}/install", prefix])
    env = {**os.environ, "PKG_CONFIG_PATH": f"{prefix}/lib/pkgconfig", "CMAKE_PREFIX_PATH": prefix}
    if shutil.which("pkg-config"):
        line = f'eval cc -D_GNU_SOURCE {program} $(pkg-config --cflags --libs sapyguendo) "-Wl,-rpath,\'{prefix}/lib\'" -o {room}/linked'
        linked = ran(["sh", "-c", line], env=env)
        tally.check("pkg-config with a space", why(linked) or answers(f"{room}/linked", room))
    if shutil.which("cmake"):
        os.makedirs(f"{room}/user")
        with open(f"{room}/user/CMakeLists.txt", "w", encoding="utf-8") as it:
            it.write(CMAKE.replace("FILE", program))
        built = ran(["sh", "-c", f"cmake -S {room}/user -B {room}/user/out && cmake --build {room}/user/out"], env={**env, "CFLAGS": "-D_GNU_SOURCE"})
        tally.check("CMake", why(built) or answers(f"{room}/user/out/shared", room) or answers(f"{room}/user/out/fixed", room))


def answers(program, room):
    it = ran([program, f"{room}/history"], SCRIPT)
    return why(it) or (None if it.stdout == ANSWER else str(it.stdout))


def used(room, archive):
    """Why a user who has nothing but the release fails."""
    home = f"{room}/user_home"
    os.makedirs(home)
    for name, text in (("script", SCRIPT), ("wanted", ANSWER)):
        with open(f"{home}/{name}", "wb") as it:
            it.write(text)
    with open(f"{room}/tree/{os.path.basename(archive).removesuffix('-x86_64-linux.tar.gz')}/README.md", encoding="utf-8") as it:
        commands = "\n".join(re.findall(r"```sh\n(.*?)```", it.read(), re.S))
    cargo = shutil.which("cargo") or ""
    if not cargo:
        commands = re.sub(r"(?m)^cargo .*$", "", commands)
    # (each server that was compiled begins)
    commands = re.sub(r"(?m)^(cc .*)$", r"\1; { timeout 5 ./server h || true; } | head -n 1 | grep -q '^[0-9]'", commands)
    hides = ran(["unshare", "-rm", "mount", "-t", "tmpfs", "none", TOP]).returncode == 0 if shutil.which("unshare") else False
    if not hides:
        print("ffi: the repository can't be hidden from the user of a release")
    path = [os.path.dirname(sys.executable), *filter(None, [os.path.dirname(cargo)]), "/usr/bin", "/bin"]
    env = {"PATH": ":".join(path), "HOME": home, "ROOM": home, "TOP": TOP, "RELEASE": archive, "CARGO": cargo, "HIDES": "1" if hides else "",
           "RUSTUP_HOME": os.environ.get("RUSTUP_HOME", os.path.expanduser("~/.rustup")), "CARGO_HOME": f"{home}/cargo",
           "PIP_TARGET": f"{home}/site", "PYTHONPATH": f"{home}/site", "PIP_NO_INDEX": "1", "PIP_ROOT_USER_ACTION": "ignore"}
    words = [*["unshare", "-rm"] * hides, "bash", "-c", USER.replace("COMMANDS", commands)]
    it = ran(words, cwd=home, env=env)
    return why(it) or (f"{listed(f'{home}/.local')} remain" if listed(f"{home}/.local") else None)
