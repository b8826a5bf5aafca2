"""Whether the Python module answers as the rules say, closes what nothing refers to, keeps its calls in turn, and refuses what is out of range."""
import gc
import threading
import unittest
import weakref

import sapyguendo
from sapyguendo import IGNORE, RUNNING, Counts, Entry, Fault, Reason, Reply, Row, Supervisor, Template, failed


def resident():
    with open("/proc/self/statm", encoding="ascii") as it:
        return int(it.read().split()[1]) * 4096


class Collected(unittest.TestCase):
    def test_one_that_nothing_refers_to_is_closed(self):
        sup = Supervisor(Template())
        held, there = getattr(sup, "_held", None), weakref.ref(sup)
        del sup
        gc.collect()
        self.assertEqual((there(), held and held.is_open), (None, held and False))

    def test_one_in_a_circle_is_closed(self):
        for holder in ("sup", "start", "none"):
            def start(argument, moment):
                return RUNNING

            sup = Supervisor(Template(), start)
            if holder != "none":
                (sup if holder == "sup" else start).me = sup
            held, there = getattr(sup, "_held", None), (weakref.ref(sup), weakref.ref(start))
            sup.start_child(0, "a")
            del sup, start
            gc.collect()
            self.assertEqual(([it() for it in there], held and held.is_open), ([None, None], held and False))

    def test_a_reply_is_right_while_all_objects_are_held(self):
        sup = Supervisor(Template())
        gc.disable()
        self.addCleanup(gc.enable)
        replies = []
        for name in "abc":
            replies.append(sup.start_child(0, name))
            held = gc.get_objects()
        self.assertEqual(([it.number for it in replies], len(held) > 0), ([1, 2, 3], True))

    def test_their_memory_comes_back(self):
        for _ in range(20):
            Supervisor(Template())
        before = resident()
        for _ in range(200):
            Supervisor(Template()).start_child(0, "a")
        gc.collect()
        self.assertLess(resident(), before + 20_000_000)

    def test_no_call_keeps_memory(self):
        def raises(argument, moment):
            raise ValueError

        def refused(call, error):
            def refuses():
                with self.assertRaises(error):
                    call()

            return refuses

        sup, moments = Supervisor(Template(intensity=1000, period=1, max=20)), iter(range(1 << 30))
        numbers = [sup.start_child(0, f"session-{it}").number for it in range(10)]
        crash, line = Reason.other("crash"), Entry("exit", 1 << 60, 1 << 60, Reason.other("x" * 40), answer=failed(1 << 30)).line()
        others = [Supervisor(Template(max=5), it) for it in (lambda *_: failed(1 << 20), raises, lambda *_: 0)]
        calls = [
            lambda: numbers.append(sup.exit(next(moments) // 500, numbers.pop(0), crash).next),
            lambda: numbers.append(sup.update(Entry("exit", next(moments) // 500, numbers.pop(0), crash, handle=7))[0].next),
            lambda: sup.step(Entry("retry", 0, 1 << 50)),
            lambda: (sup.which(), sup.child(numbers[0]), sup.counts(), sup.asks(Entry("start", 0, text="a"))),
            lambda: Entry.read(line)[0].line(),
            lambda: Supervisor(Template(max=3)).close(),
            lambda: others[0].start_child(0, "a"),
            refused(lambda: others[1].start_child(0, "a"), ValueError),
            refused(lambda: others[2].start_child(0, "a"), TypeError),
            refused(lambda: sup.exit(0, 1, None), Fault),
            refused(lambda: sup.start_child(0, "a b"), Fault),
            refused(lambda: Entry.read("x"), Fault),
            refused(lambda: sup.update(None), TypeError),
        ]
        for call in calls:
            for _ in range(500):
                call()
            gc.collect()
            before = resident()
            for _ in range(10_000):
                call()
            gc.collect()
            self.assertLess(resident(), before + 400_000)

    def test_one_that_was_closed_refuses_each_call(self):
        with Supervisor(Template()) as sup:
            sup.start_child(0, "a")
        sup.close()
        for call in (sup.counts, sup.which, sup.left, sup.stamp, lambda: sup.child(1), lambda: sup.stop(0), lambda: sup.start_child(0, "a")):
            with self.assertRaises(Fault) as it:
                call()
            self.assertEqual((it.exception.number, it.exception.field), (15, ""))

    def test_threads_take_turns(self):
        with Supervisor(Template("temporary")) as sup:

            def work():
                for moment in range(2_000):
                    number = sup.start_child(moment, "a").number
                    self.assertEqual(sup.exit(moment, number, Reason.normal()).kind, "removed")

            threads = [threading.Thread(target=work) for _ in range(4)]
            for it in threads:
                it.start()
            for it in threads:
                it.join()
            self.assertEqual((sup.stamp(), sup.which()), (16_000, []))

    def test_a_start_function_that_raises_changes_nothing(self):
        def start(argument, moment):
            raise ValueError(argument)

        with Supervisor(Template(), start) as sup:
            with self.assertRaises(ValueError):
                sup.start_child(0, "a")
            self.assertEqual((sup.stamp(), sup.which()), (0, []))

    def test_what_is_out_of_range_is_refused(self):
        for bad in (Template("always"), Template(max=0), Template(max=-1), Template(max=1 << 64), Template(significant=True)):
            with self.assertRaises(Fault) as it:
                Supervisor(bad)
            self.assertEqual(it.exception.number, 7)
        with Supervisor(Template()) as sup:
            bad_ones = [Entry("start", 0), Entry("start", 0, text="a b"), Entry("start", -1, text="a"), Entry("start", 1 << 64, text="a")]
            bad_ones += [Entry("begin", 0), Entry("exit", 0, 1, Reason.other("normal")), Entry("start", 0, text="x" * 41)]
            bad_ones += [Entry("start", 0, text="a\0b"), Entry("exit", 0, 1 << 65, Reason.normal())]
            for bad in bad_ones:
                with self.assertRaises(Fault) as it:
                    sup.update(bad)
                self.assertEqual(it.exception.number, 9)
            with self.assertRaises(Fault):
                Supervisor(Template(), start=lambda argument, moment: failed(1 << 32)).start_child(0, "a")
            self.assertEqual(sup.stamp(), 0)

    def test_an_entry_is_a_line_and_a_line_an_entry(self):
        entry = Entry("exit", 5, 3, Reason.shutdown("bye"), answer=failed(4), handle=1, serial=2)
        self.assertEqual(entry.line(), "1 2 5 exit 3 shutdown:bye failed 4\n")
        self.assertEqual(Entry.read(entry.line() + "rest"), (entry, "rest"))
        self.assertEqual(Template("transient").line(), "history 2 transient worker 1 5 65536 plain never\n")
        self.assertEqual(sapyguendo.version(), sapyguendo.words.VERSION)


class Answered(unittest.TestCase):
    """Each call by itself, with the values that the rules give."""

    def setUp(self):
        self.asked = []
        self.sup = Supervisor(Template("transient", "supervisor", 3, 10, 2), self.start)
        self.addCleanup(self.sup.close)

    def start(self, argument, moment):
        self.asked.append((argument, moment))
        return {1: failed(7), 2: IGNORE}.get(moment, RUNNING)

    def test_a_failed_restart_waits_for_a_retry(self):
        sup = self.sup
        self.assertEqual(sup.start_child(0, "a"), Reply("started", 1))
        self.assertEqual(sup.child(1), Row(1, "running", "a"))
        self.assertEqual(sup.exit(1, 1, Reason.other("x")), Reply("restarting", 1, 0, 7))
        self.assertEqual((sup.child(1), sup.child(2)), (Row(1, "restarting", "a"), None))
        self.assertEqual(sup.counts(), Counts(1, 0, 1, 0))
        self.assertEqual(sup.retry(9, 1), Reply("restarted", 1, 2))
        self.assertEqual(sup.retry(9, 1), Reply("not_found"))
        self.assertEqual(sup.which(), [Row(2, "running", "a")])
        self.assertEqual(sup.counts(), Counts(1, 1, 1, 0))
        self.assertEqual(sup.exit(9, 2, Reason.shutdown("bye")), Reply("removed", 2))
        self.assertEqual((sup.which(), sup.stamp()), ([], 5))
        self.assertEqual(self.asked, [("a", 0), ("a", 1), ("a", 9)])

    def test_a_child_is_ended_and_the_supervisor_stopped(self):
        sup = self.sup
        self.assertEqual(sup.start_child(2, "a"), Reply("undefined"))
        self.assertEqual([sup.start_child(3, it).kind for it in "abc"], ["started", "started", "full"])
        self.assertEqual(sup.which(), [Row(1, "running", "a"), Row(2, "running", "b")])
        self.assertEqual(sup.terminate_child(3, 1), Reply("ended"))
        self.assertEqual(sup.terminate_child(3, 1), Reply("not_found"))
        self.assertEqual((sup.child(1), sup.child(2)), (None, Row(2, "running", "b")))
        self.assertIs(sup.is_down(), False)
        self.assertEqual(sup.stop(4), Reply("stopped"))
        self.assertIs(sup.is_down(), True)
        self.assertEqual((sup.counts(), sup.which(), sup.child(2), sup.stamp()), (None, None, None, 7))
        self.assertEqual(sup.start_child(5, "d"), Reply("down"))

    def test_a_termination_has_its_moment(self):
        sup = self.sup
        self.assertEqual([sup.start_child(0, it).number for it in "ab"], [1, 2])
        self.assertEqual([sup.exit(0, it, Reason.other("x")).kind for it in (1, 3, 4)], ["restarted"] * 3)
        self.assertEqual(sup.terminate_child(11, 2), Reply("ended"))
        self.assertEqual(sup.exit(0, 5, Reason.other("x")), Reply("restarted", 5, 6))

    def test_what_would_be_asked_changes_nothing(self):
        sup = self.sup
        sup.start_child(0, "a")
        self.assertEqual(sup.asks(Entry("start", 0, text="b")), "b")
        self.assertEqual(sup.asks(Entry("exit", 0, 1, Reason.other("x"))), "a")
        for entry in (Entry("exit", 0, 1, Reason.normal()), Entry("terminate", 0, 1), Entry("retry", 0, 1), Entry("stop", 0)):
            self.assertIsNone(sup.asks(entry))
        self.assertEqual((sup.stamp(), self.asked), (1, [("a", 0)]))

    def test_an_entry_is_run_again_as_it_is(self):
        sup = self.sup
        reply, entry = sup.update(Entry("start", 0, text="a", handle=4))
        self.assertEqual((reply, entry), (Reply("started", 1), Entry("start", 0, text="a", answer=RUNNING, handle=4)))
        self.assertEqual(sup.step(Entry("exit", 1, 1, Reason.other("x"), answer=failed(9))), Reply("restarting", 1, 0, 9))
        self.assertEqual(sup.step(Entry("retry", 1, 1, answer=IGNORE)), Reply("ignored", 1))
        self.assertEqual(sup.update(Entry("stop", 8)), (Reply("stopped"), Entry("stop", 8, serial=3)))
        self.assertEqual(self.asked, [("a", 0)])


if __name__ == "__main__":
    unittest.main()
