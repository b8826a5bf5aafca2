"""Whether the supervisor of threads begins, restarts, tries again and ends them."""
import asyncio
import contextvars
import faulthandler
import logging
import os
import signal
import sys
import threading
import time
import unittest
from unittest import mock

from sapyguendo import Fault, GaveUp, NotStarted, Supervisor, Template, ThreadSupervisor

logging.getLogger("sapyguendo").addHandler(logging.NullHandler())
logging.getLogger("sapyguendo").propagate = False
SECONDS = 20


class Threads(unittest.TestCase):
    def setUp(self):
        faulthandler.dump_traceback_later(3 * SECONDS, exit=True)
        self.lock, self.runs, self.crashes, self.ended, self.lines = threading.Lock(), [], 0, 0, []

    def tearDown(self):
        faulthandler.cancel_dump_traceback_later()

    def body(self, argument, stop, *more):
        """Ends at once if its name begins with e, crashes if there are crashes to come, and else waits until it is asked to end."""
        with self.lock:
            self.runs.append((argument, *more))
            crashes = argument[0] == "c" and self.crashes > 0
            self.crashes -= crashes
        if crashes:
            raise ValueError(argument)
        if argument[0] != "e":
            stop.wait()
            with self.lock:
                self.ended += 1

    def until(self, is_so):
        end = time.monotonic() + SECONDS
        while not is_so():
            self.assertLess(time.monotonic(), end)
            time.sleep(0.005)

    def replayed(self):
        supervisor, replies = Supervisor.replay("".join(self.lines))
        return supervisor, [it.kind for it in replies]

    def test_many_threads_and_crashes(self):
        self.crashes = 50
        before = threading.active_count()
        with ThreadSupervisor(Template("transient", intensity=100, max=200), self.body, history=self.lines.append) as sup:
            children = [sup.start(f"{'c' if i < 50 else 'e' if i < 80 else 'p'}-{i}", i) for i in range(170)]
            self.until(lambda: len(self.runs) == 220 and len(sup) == 140)
            self.assertEqual(sorted(it.number for it in sup), [it.number for it in self.replayed()[0]])
            self.assertTrue(all(it.run.name == it.argument for it in sup))
            self.assertTrue(sup.terminate(children[-1].number))
            self.assertFalse(sup.terminate(1000))
            self.until(lambda: self.ended == 1)
        self.assertEqual((self.ended, len(sup), threading.active_count()), (140, 0, before))
        replies = self.replayed()[1]
        self.assertEqual((replies.count("restarted"), replies.count("removed"), replies[-1]), (50, 30, "stopped"))

    def test_it_gives_up_from_the_last_crash(self):
        self.crashes = 3
        with self.assertRaises(GaveUp) as it, ThreadSupervisor(Template(intensity=2), self.body, history=self.lines.append) as sup:
            sup.start("p")
            sup.start("c", 17)
            with self.assertRaises(GaveUp):
                sup.join(SECONDS)
            with self.assertRaises(NotStarted) as down:
                sup.start("p")
        self.assertEqual((repr(it.exception.__cause__), down.exception.reply.kind), ("ValueError('c')", "down"))
        self.assertEqual((self.ended, self.replayed()[1][-3:]), (1, ["restarted", "restarted", "gave_up"]))

    def test_it_joins_those_that_end(self):
        with ThreadSupervisor(Template("transient"), self.body) as sup:
            self.assertTrue(sup.join())
            for _ in range(5):
                sup.start("e")
            self.assertTrue(sup.join(SECONDS))
            sup.start("p")
            self.assertFalse(sup.join(0.01))

    def test_it_joins_those_that_were_asked_to_end(self):
        ended = []

        def slow(argument, stop):
            stop.wait()
            time.sleep(0.1)
            ended.append(argument)

        with ThreadSupervisor(Template(), slow) as sup:
            sup.terminate(sup.start("x").number)
            self.assertEqual((len(sup), sup.join(0.01)), (0, False))
            self.assertEqual((sup.join(SECONDS), ended), (True, ["x"]))

    def test_a_restart_without_a_thread_is_tried_again_after_a_delay(self):
        self.crashes, begun, real = 1, [], threading.Thread.start

        def start(thread):
            begun.append(time.monotonic())
            if len(begun) in (2, 3):
                raise RuntimeError("can't start new thread")
            real(thread)

        with mock.patch("threading.Thread.start", start):
            with ThreadSupervisor(Template(intensity=10), self.body, retry_after=0.05, history=self.lines.append) as sup:
                child = sup.start("c")
                self.until(lambda: len(begun) == 4 and child.run)
        self.assertTrue(all(after - before >= 0.04 for before, after in zip(begun[1:], begun[2:])))
        self.assertEqual(self.replayed()[1], ["started", "restarting", "restarting", "restarted", "stopped"])

    def test_a_start_without_a_thread_begins_no_child(self):
        with mock.patch("threading.Thread.start", side_effect=RuntimeError), ThreadSupervisor(Template(), self.body) as sup:
            with self.assertRaises(NotStarted) as it:
                sup.start("p")
            self.assertEqual((it.exception.reply.kind, type(it.exception.__cause__), len(sup)), ("start_failed", RuntimeError, 0))

    def test_a_child_that_waits_for_another_try_ends_with_its_supervisor(self):
        self.crashes, begun, real = 1, [], threading.Thread.start

        def start(thread):
            begun.append(thread)
            if len(begun) > 1:
                raise RuntimeError("can't start new thread")
            real(thread)

        began = time.monotonic()
        with mock.patch("threading.Thread.start", start), ThreadSupervisor(Template(intensity=10), self.body, retry_after=1000) as sup:
            child = sup.start("c")
            self.until(lambda: len(begun) == 2 and child.run is None)
        self.assertLess(time.monotonic() - began, SECONDS)

    def test_any_thread_may_use_it(self):
        with ThreadSupervisor(Template("temporary"), self.body, history=self.lines.append) as sup:

            def work(name):
                for i in range(20):
                    child = sup.start(f"p-{name}-{i}")
                    self.assertIn(child.number, sup)
                    sup.terminate(child.number)

            threads = [threading.Thread(target=work, args=(i,)) for i in range(4)]
            for it in threads:
                it.start()
            for it in threads:
                it.join()
            self.assertTrue(sup.join(SECONDS))
        self.assertEqual((len(self.runs), self.replayed()[1].count("ended")), (80, 80))

    def test_a_body_that_ignores_its_event_is_logged(self):
        ends = threading.Event()
        with self.assertLogs("sapyguendo", "ERROR") as logged:
            with ThreadSupervisor(Template(), lambda argument, stop: ends.wait(), timeout=0.05) as sup:
                thread = sup.start("stuck").run
        ends.set()
        thread.join(SECONDS)
        self.assertIn("stuck", logged.output[0])
        self.assertFalse(thread.is_alive())

    def test_a_thread_that_exits_has_not_crashed(self):
        with ThreadSupervisor(Template("transient"), lambda argument, stop: sys.exit(1), history=self.lines.append) as sup:
            sup.start("x")
            self.assertTrue(sup.join(SECONDS))
        self.assertEqual(self.replayed()[1], ["started", "removed", "stopped"])

    def test_a_full_history_takes_it_down(self):
        with self.assertRaises(Fault), ThreadSupervisor(Template(entries=2), self.body) as sup:
            sup.start("p")
            sup.start("e")
            sup.join(SECONDS)

    def test_context_variables_are_those_of_the_start(self):
        session, seen = contextvars.ContextVar("session"), []

        def body(argument, stop):
            seen.append(session.get())
            session.set("changed")
            if len(seen) == 1:
                raise ValueError

        session.set("a")
        with ThreadSupervisor(Template("transient"), body) as sup:
            sup.start("x")
            session.set("b")
            sup.join(SECONDS)
        self.assertEqual(seen, ["a", "a"])

    def test_a_fork_has_none_of_its_children(self):
        self.crashes = 1 << 30
        ended = threading.Event()

        def body(argument, stop):
            while argument[0] == "p" and not stop.wait(0.001):
                pass
            raise ValueError

        with ThreadSupervisor(Template(intensity=1000, period=1), body) as sup:
            sup.start("p")

            def works():
                while not ended.is_set():
                    sup.terminate(sup.start("p").number)

            thread = threading.Thread(target=works)
            thread.start()
            try:
                for _ in range(20):
                    child = os.fork()
                    if child == 0:
                        status = 1
                        try:
                            signal.alarm(10)
                            sup.terminate(1)
                            with self.assertRaises(NotStarted):
                                sup.start("p")
                            self.assertTrue(sup.join(5))
                            sup.__exit__(None, None, None)
                            status = 0 if len(sup) == 0 else 2
                        finally:
                            os._exit(status)
                    self.assertEqual(os.waitpid(child, 0)[1], 0)
            finally:
                ended.set()
                thread.join()
            self.assertIn(1, sup)

    def test_an_async_body_is_refused(self):
        async def body(argument, stop):
            await asyncio.sleep(0)

        with self.assertRaisesRegex(TypeError, "async"):
            ThreadSupervisor(Template(), body)


if __name__ == "__main__":
    unittest.main()
