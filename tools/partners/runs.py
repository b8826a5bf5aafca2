"""How a text is run: by the program, by OTP's supervisor, and by the recount. Each result is standard output, standard
error and exit status. If something is missing, Missing says what and how to come by it."""
import os
import shutil
import signal
import struct
import subprocess
import sys

HERE = os.path.dirname(os.path.realpath(__file__))
TOP = os.path.dirname(os.path.dirname(HERE))
SECONDS = 60
DRIVER = ("otp_clock", "otp_differences", "otp_formats", "otp_driver")
BEGIN = """
Load = fun(File) ->
    {ok, Module, Binary} = compile:file(File, [binary, report_errors]),
    {module, Module} = code:load_binary(Module, File, Binary)
end,
[Load(It) || It <- init:get_plain_arguments()],
otp_driver:serve().
"""


class Missing(Exception):
    """What a command needs and does not find."""


def program():
    """The path of the program: SUPLOAD of the environment, or that of the repository, which `./supload prove all` builds at first use."""
    given = os.environ.get("SUPLOAD")
    if given:
        if not os.access(given, os.X_OK):
            raise Missing(f"SUPLOAD names no program: {given}")
        return os.path.abspath(given)
    if subprocess.run([f"{TOP}/supload", "prove", "all"], check=False).returncode != 0:
        raise Missing("./supload prove all does not build the program; SUPLOAD=PATH names another one")
    return f"{TOP}/crates/sup_load/out/sup_load"


def by_program(path, kind, text):
    """Runs the program on a text. A program that is ended by a signal has its negated number as status."""
    try:
        ran = subprocess.run([path, kind], input=text, capture_output=True, timeout=SECONDS, cwd="/", close_fds=False)
    except subprocess.TimeoutExpired:
        return b"", b"it did not end within %d seconds\n" % SECONDS, -signal.SIGKILL
    return ran.stdout, ran.stderr, ran.returncode


class Otp:
    """A virtual machine of Erlang that runs texts against the installed OTP's supervisor, by the driver in a folder."""

    def __init__(self, folder=HERE):
        if not shutil.which("erl"):
            raise Missing("the command erl is missing: it comes with Debian's package erlang-base")
        files = [f"{folder}/{it}.erl" for it in DRIVER]
        words = ["erl", "-noinput", "-boot", "start_clean", "+S", "1:1", "+sbwt", "none", "-eval", BEGIN, "-extra", *files]
        self.machine = subprocess.Popen(words, stdin=subprocess.PIPE, stdout=subprocess.PIPE, cwd="/")
        word, _, told = self.packet().decode().partition(" ")
        if word != "release":
            raise Missing(f"the installed OTP cannot be driven: {told}")
        self.release = told

    def packet(self):
        head = self.machine.stdout.read(4)
        if len(head) < 4:
            raise Missing("the virtual machine of Erlang ended; what it said is above")
        return self.machine.stdout.read(struct.unpack(">I", head)[0])

    def run(self, kind, text):
        packet = kind[:1].encode() + text
        self.machine.stdin.write(struct.pack(">I", len(packet)) + packet)
        self.machine.stdin.flush()
        told = self.packet()
        status, size = struct.unpack(">BI", told[:5])
        return told[5 : 5 + size], told[5 + size :], status

    def close(self):
        self.machine.stdin.close()
        self.machine.wait()


def say(text):
    print(text, file=sys.stderr, flush=True)
