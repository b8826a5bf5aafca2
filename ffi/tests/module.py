"""Whether the module looks like Python: containers, texts, annotations, exceptions, replays, and the page of examples."""
import asyncio
import doctest
import importlib
import inspect
import os
import pickle
import pkgutil
import re
import shutil
import subprocess
import sys
import tempfile
import threading
import time
import typing
import unittest

import sapyguendo
from sapyguendo import Entry, Fault, GaveUp, NotStarted, Reason, Reply, Row, Supervisor, Template, failed

TOP = os.path.dirname(os.path.dirname(os.path.dirname(os.path.realpath(__file__))))
FOLDER = os.path.dirname(sapyguendo.__file__)


def modules():
    names = [it.name for it in pkgutil.iter_modules([FOLDER]) if not it.name.startswith("_")]
    return [sapyguendo, *(importlib.import_module(f"sapyguendo.{it}") for it in names)]


class Containers(unittest.TestCase):
    def test_a_supervisor_is_a_container_of_rows(self):
        sup = Supervisor(Template("temporary"))
        for name in "abc":
            sup.start_child(0, name)
        sup.terminate_child(0, 2)
        self.assertEqual((len(sup), list(sup)), (2, [Row(1, "running", "a"), Row(3, "running", "c")]))
        self.assertEqual([it in sup for it in (0, 1, 2, 3, 1 << 64, -1, 1.0, "1", None)], [False, True, False, True, *[False] * 5])
        self.assertEqual(repr(sup), "<Supervisor temporary: 2 children>")
        sup.stop(1)
        self.assertEqual((len(sup), list(sup), 1 in sup, repr(sup)), (0, [], False, "<Supervisor temporary: down>"))
        sup.close()
        self.assertEqual(repr(sup), "<Supervisor temporary: closed>")

    def test_one_that_waits_for_another_try_is_counted(self):
        answers = iter([sapyguendo.RUNNING, failed(1)])
        sup = Supervisor(Template(), lambda name, moment: next(answers))
        sup.start_child(0, "a")
        sup.exit(0, 1, Reason.normal())
        self.assertEqual((len(sup), list(sup), 1 in sup), (1, [Row(1, "restarting", "a")], True))

    def test_a_list_of_many_rows_lets_other_threads_in(self):
        sup = Supervisor(Template("temporary"))
        for _ in range(65536):
            sup.start_child(0, "session-17")

        def longest():
            gaps, ended = [], threading.Event()

            def ticks():
                last = time.monotonic()
                while not ended.is_set():
                    sup.child(1)
                    now = time.monotonic()
                    gaps.append(now - last)
                    last = now

            thread = threading.Thread(target=ticks)
            thread.start()
            rows = sup.which()
            ended.set()
            thread.join()
            self.assertEqual((len(rows), rows[0].number, rows[-1].number), (65536, 1, 65536))
            return max(gaps)

        self.assertLess(min(longest() for _ in range(3)), 0.25)


class Words(unittest.TestCase):
    def test_an_exception_is_a_reason(self):
        class Strange(Exception):
            def __str__(self):
                raise ValueError

        shutdown_like = type("shutdown:now", (Exception,), {})
        for error, reason in (
            (None, Reason.normal()),
            (asyncio.CancelledError(), Reason.shutdown("cancelled")),
            (ValueError("no session 17"), Reason.other("ValueError:_no_session_17")),
            (ValueError(), Reason.other("ValueError")),
            (KeyError("caf\u00e9\udcff\n"), Reason.other("KeyError:_'caf__xdcff_n'")),
            (OSError("x" * 100), Reason.other("OSError:_" + "x" * 31)),
            (Strange(), Reason.other("Strange")),
            (type("normal", (Exception,), {})(), Reason.other("crash:normal")),
            (type("shutdown", (Exception,), {})(), Reason.other("crash:shutdown")),
            (shutdown_like("y" * 40), Reason.other("crash:shutdown:now:_" + "y" * 20)),
        ):
            found = Reason.of(error)
            if isinstance(error, KeyError):
                self.assertRegex(found.text, r"^KeyError:_[!-~]+$")
            else:
                self.assertEqual(found, reason)
            sup = Supervisor(Template("temporary"))
            sup.start_child(0, "a")
            self.assertEqual(sup.exit(0, 1, found), Reply("removed", 1))

    def test_a_template_is_read_as_it_is_written(self):
        for template in (Template(), Template("transient", "supervisor", 0, 86400, 1, True, "all"), Template("temporary", intensity=1000)):
            self.assertEqual(Template.read(template.line()), template)
        self.assertEqual(Template.read("history 1 permanent worker 1 5 10\n"), Template(max=10))
        sound = "history 2 permanent worker 1 5 10 plain never\n"
        bad_ones = ["", sound[:-1], sound + "\n", sound.replace("2", "3"), sound.replace("2", "1"), sound.replace(" 1 ", " 01 "), sound.replace(" ", "  ")]
        bad_ones += ["history 2 permanent worker 1 5 10\n", sound.replace("worker", "process"), sound.replace("5", "+5"), sound.replace("5", "\u0665")]
        for line in bad_ones:
            with self.assertRaises(Fault) as it:
                Template.read(line)
            self.assertEqual((it.exception.number, it.exception.field), (9, "line 1"))
        for line, field in ((sound.replace("5", "0"), "period"), (sound.replace(" 1 ", " 1001 "), "intensity"), (sound.replace("plain", "significant"), "significant")):
            with self.assertRaises(Fault) as it:
                Template.read(line)
            self.assertEqual((it.exception.number, it.exception.field), (7, field))

    def test_a_field_that_the_library_refuses_is_named(self):
        sup = Supervisor(Template())
        for call, field in (
            (lambda: sup.start_child(0, "a b"), "text"),
            (lambda: sup.start_child(0, "x" * 41), "text"),
            (lambda: sup.exit(0, 1, Reason.other("normal")), "reason"),
            (lambda: sup.exit(0, 1, Reason.shutdown("")), "reason"),
            (lambda: sup.exit(0, 1, None), "reason"),
            (lambda: sup.exit(0, 1, Reason("crash")), "reason"),
            (lambda: sup.step(Entry("stop", 0, answer=sapyguendo.Answer(3))), "answer"),
            (lambda: Entry("start", 0, text="").line(), "text"),
            (lambda: sup.asks(Entry("exit", 0, 1, Reason.other("a b"))), "reason"),
            (lambda: sup.update(Entry("stop", 0, answer=None)), "answer"),
        ):
            with self.assertRaises(Fault) as it:
                call()
            self.assertEqual((it.exception.number, it.exception.field), (9, field))
        for wrong in (None, ("stop", 0), "stop"):
            with self.assertRaises(TypeError):
                sup.update(wrong)
        with self.assertRaises(TypeError):
            sup.exit(0, 1)
        for template, field in ((Template(significant=True), "significant"), (Template(period=0), "period"), (Template(max=65537), "max")):
            with self.assertRaises(Fault) as it:
                Supervisor(template)
            self.assertEqual((it.exception.number, it.exception.field), (7, field))
        self.assertEqual(sup.stamp(), 0)

    def test_exceptions_survive_pickling(self):
        reason = Reason.other("x")
        for it in (Fault(9, "text"), GaveUp(1, "a", reason), NotStarted("a", Reply("full"))):
            again = pickle.loads(pickle.dumps(it))
            self.assertEqual((type(again), again.args, str(again), vars(again)), (type(it), it.args, str(it), vars(it)))


class Replays(unittest.TestCase):
    def test_a_history_is_run_again(self):
        lines, sup = [Template("transient", max=10).line()], Supervisor(Template("transient", max=10))
        entries = [Entry("start", 0, text="a"), Entry("start", 1, text="b"), Entry("exit", 2, 1, Reason.other("x")), Entry("terminate", 3, 2)]
        replies = []
        for entry in entries:
            reply, entered = sup.update(entry)
            replies.append(reply)
            lines.append(entered.line())
        again, told = Supervisor.replay("".join(lines))
        self.assertEqual((told, list(again), again.stamp(), again.template), (replies, list(sup), 4, sup.template))
        self.assertEqual(again.start_child(9, "c"), sup.start_child(9, "c"))

    def test_a_wrong_line_is_named(self):
        sound = Template().line() + "0 0 0 start a running\n"
        self.assertEqual(len(Supervisor.replay(sound)[0]), 1)
        for text, line in (("", 1), (sound[:-1], 2), (sound + "0 0 0 stop\n", 3), (sound + sound, 3), (sound + "\n", 3)):
            with self.assertRaises(Fault) as it:
                Supervisor.replay(text)
            self.assertEqual((it.exception.number, it.exception.field), (9, f"line {line}"))


class Package(unittest.TestCase):
    def test_all_hints_resolve_and_nothing_public_lacks_them(self):
        def checked(function, name):
            hints = typing.get_type_hints(inspect.unwrap(function))
            wanted = [it for it in inspect.signature(function).parameters if it not in ("self", "cls")]
            if "Core" not in name and "<lambda>" not in name:
                self.assertEqual([it for it in [*wanted, "return"] if it not in hints], [], name)

        count = 0
        for module in modules():
            typing.get_type_hints(module)
            for name, it in vars(module).items():
                if getattr(it, "__module__", None) != module.__name__:
                    continue
                if inspect.isfunction(it):
                    checked(it, name)
                    count += 1
                elif inspect.isclass(it):
                    typing.get_type_hints(it)
                    for member, method in vars(it).items():
                        method = getattr(method, "__func__", method)
                        if inspect.isfunction(method) and method.__code__.co_filename.startswith(FOLDER):
                            checked(method, f"{name}.{member}")
                            count += 1
        self.assertGreater(count, 60)
        self.assertTrue(os.path.exists(f"{FOLDER}/py.typed"))

    def test_what_is_public_is_there_and_nothing_else(self):
        there = {}
        exec("from sapyguendo import *", there)
        del there["__builtins__"]
        self.assertEqual(set(there), set(sapyguendo.__all__))
        self.assertEqual(len(sapyguendo.__all__), len(set(sapyguendo.__all__)))
        for it in there.values():
            if inspect.isclass(it):
                for name, member in inspect.getmembers(it, callable):
                    if not name.startswith("_") and it.__module__.startswith("sapyguendo") and it not in (type, object):
                        self.assertTrue(inspect.getdoc(member), f"{it.__name__}.{name} has no documentation")

    def test_a_library_of_another_version_is_refused(self):
        with tempfile.TemporaryDirectory() as room:
            shutil.copytree(FOLDER, f"{room}/sapyguendo")
            with open(f"{room}/sapyguendo/words.py", encoding="utf-8") as it:
                text, count = re.subn(r"(?m)^VERSION = \d+$", "VERSION = 7", it.read())
            self.assertEqual(count, 1)
            with open(f"{room}/sapyguendo/words.py", "w", encoding="utf-8") as it:
                it.write(text)
            ran = subprocess.run([sys.executable, "-B", "-c", "import sapyguendo"], env={**os.environ, "PYTHONPATH": room}, capture_output=True, text=True)
        self.assertIn("of version", ran.stderr)
        self.assertIn("ImportError", ran.stderr)

    def test_the_examples_of_the_documents(self):
        failures, tries = doctest.testfile(f"{TOP}/docs/PYTHON.md", module_relative=False)
        self.assertEqual(failures, 0)
        self.assertGreater(tries, 25)
        self.assertEqual(doctest.testmod(sapyguendo).failed, 0)

    @unittest.skipUnless(importlib.util.find_spec("mypy"), "mypy is not installed")
    def test_mypy(self):
        ran = subprocess.run([sys.executable, "-m", "mypy", "--strict", FOLDER], capture_output=True, text=True)
        self.assertEqual(ran.returncode, 0, ran.stdout)


if __name__ == "__main__":
    unittest.main()
