"""Whether the calls of the Python module end if a garbage collection, a signal, the start function or a fork comes into one."""
import faulthandler
import gc
import os
import signal
import threading
import unittest

from sapyguendo import IGNORE, RUNNING, Entry, Fault, Reason, Supervisor, Template


class Reentered(unittest.TestCase):
    def setUp(self):
        faulthandler.dump_traceback_later(60, exit=True)

    def tearDown(self):
        faulthandler.cancel_dump_traceback_later()

    def test_a_collection_may_enter_an_exit_while_rows_are_listed(self):
        sup = Supervisor(Template("temporary"))

        class Connection:
            def __init__(self, number):
                self.number, self.me = number, self

            def __del__(self):
                sup.exit(0, self.number, Reason.normal())
                sup.which()

        for i in range(3_000):
            Connection(sup.start_child(0, "connection").number)
            if i % 50 == 0:
                rows = [it.number for it in sup.which()]
                self.assertEqual(rows, sorted(set(rows)))
        gc.collect()
        self.assertEqual(sup.which(), [])

    def test_a_signal_handler_may_use_the_supervisor(self):
        def start(argument, moment):
            if argument == "main":
                signal.raise_signal(signal.SIGALRM)
            return RUNNING

        sup = Supervisor(Template("temporary"), start)
        came = []

        def handler(*_):
            if len(came) < 10:
                came.append(argument := f"alarm-{len(came)}")
                self.assertEqual(sup.start_child(0, argument).kind, "started")
                sup.which()

        before = signal.signal(signal.SIGALRM, handler)
        signal.setitimer(signal.ITIMER_REAL, 0.001, 0.001)
        try:
            replies = [sup.start_child(0, "main").kind for _ in range(500)]
        finally:
            signal.setitimer(signal.ITIMER_REAL, 0)
            signal.signal(signal.SIGALRM, before)
        self.assertEqual((set(replies), len(came)), ({"started"}, 10))
        self.assertEqual(len(sup.which()), 510)

    def test_a_start_function_may_use_the_supervisor(self):
        asked = []

        def start(argument, moment):
            asked.append(argument)
            if argument == "outer":
                self.assertEqual(sup.start_child(moment, "inner").kind, "started")
                self.assertEqual([it.arg for it in sup.which()], ["inner"])
            return RUNNING

        sup = Supervisor(Template("temporary", max=2), start)
        reply, entry = sup.update(Entry("start", 0, text="outer"))
        self.assertEqual((reply.kind, reply.number, entry.answer, entry.serial), ("started", 2, RUNNING, 1))
        # each body was begun once
        self.assertEqual(asked, ["outer", "inner"])

    def test_what_is_asked_no_more_is_entered_without_its_answer(self):
        def start(argument, moment):
            if argument == "outer":
                sup.start_child(moment, "inner")
            return RUNNING

        sup = Supervisor(Template("temporary", max=1), start)
        reply, entry = sup.update(Entry("start", 0, text="outer"))
        self.assertEqual((reply.kind, entry.answer), ("full", IGNORE))
        self.assertEqual([it.arg for it in sup.which()], ["inner"])

    def test_a_fork_beside_calls_of_another_thread(self):
        sup = Supervisor(Template("temporary"))
        for _ in range(200):
            sup.start_child(0, "a")
        ended = threading.Event()

        def lists():
            while not ended.is_set():
                sup.which()
                sup.exit(0, sup.start_child(0, "b").number, Reason.normal())

        thread = threading.Thread(target=lists)
        thread.start()
        try:
            for _ in range(50):
                child = os.fork()
                if child == 0:
                    status = 1
                    try:
                        signal.alarm(20)
                        status = 0 if len(sup.which()) >= 200 and sup.start_child(0, "c").kind == "started" else 1
                    finally:
                        os._exit(status)
                self.assertEqual(os.waitpid(child, 0)[1], 0)
        finally:
            ended.set()
            thread.join()

    def test_threads_that_list_do_not_mix_their_rows(self):
        sup = Supervisor(Template("temporary"))
        for _ in range(50):
            sup.start_child(0, "a")
        wrong = []

        def lists():
            for _ in range(100):
                rows = [it.number for it in sup.which()]
                if rows != sorted(set(rows)) or len(rows) < 50:
                    wrong.append(rows)
                sup.exit(0, sup.start_child(0, "b").number, Reason.normal())

        threads = [threading.Thread(target=lists) for _ in range(4)]
        for it in threads:
            it.start()
        for it in threads:
            it.join()
        self.assertEqual(wrong, [])

    def test_a_full_history_begins_no_body(self):
        asked = []
        sup = Supervisor(Template("temporary", entries=1), lambda argument, moment: asked.append(argument) or RUNNING)
        sup.start_child(0, "a")
        with self.assertRaises(Fault) as it:
            sup.start_child(0, "b")
        self.assertEqual((it.exception.number, asked), (2, ["a"]))


if __name__ == "__main__":
    unittest.main()
