"""Whether the Python module refuses what spells nothing, names what was wrong, and changes nothing that it was given."""
import gc
import pickle
import time
import unittest

from sapyguendo import RUNNING, Answer, Entry, Fault, Reason, Supervisor, Template, failed


class Refused(unittest.TestCase):
    def refuses(self, call, number, field):
        with self.assertRaises(Fault) as it:
            call()
        self.assertEqual((it.exception.number, it.exception.field), (number, field))

    def test_a_number_of_a_child_is_not_cut_off(self):
        sup = Supervisor(Template())
        sup.start_child(0, "a")
        for number in (2**64 + 1, -(2**64) + 1, -1, 1.0, "1", True, None):
            self.refuses(lambda: sup.child(number), 9, "number")
            self.refuses(lambda: sup.terminate_child(0, number), 9, "number")
        self.assertEqual(sup.child(1).arg, "a")

    def test_a_text_is_not_changed(self):
        sup = Supervisor(Template())
        for text in ("caf\ud800", "\udcff", "\u00e9", "", "x" * 41, "a b"):
            with self.assertRaises(Fault) as it:
                sup.start_child(0, text)
            self.assertEqual(it.exception.number, 9)
        self.refuses(lambda: sup.start_child(0, "\udcff"), 9, "text")
        self.refuses(lambda: sup.start_child(0, None), 9, "text")
        self.refuses(lambda: sup.exit(0, 1, Reason.other("caf\u00e9")), 9, "reason")
        self.assertEqual(sup.stamp(), 0)

    def test_the_field_is_named(self):
        sup = Supervisor(Template())
        self.refuses(lambda: sup.start_child(-1, "a"), 9, "moment")
        self.refuses(lambda: sup.start_child(0.5, "a"), 9, "moment")
        self.refuses(lambda: sup.exit(0, 1 << 64, Reason.normal()), 9, "number")
        self.refuses(lambda: sup.update(Entry("begin", 0)), 9, "operation")
        self.refuses(lambda: sup.update(Entry("stop", 0, handle=-1)), 9, "handle")
        self.refuses(lambda: sup.step(Entry("stop", 0, answer=Answer(0, -1))), 9, "code")
        self.assertEqual(str(Fault(9, "moment")), "fault 9: it spells no entry: moment")
        self.assertEqual(str(Fault(15)), "fault 15: the supervisor is closed")

    def test_a_template_s_numbers_are_whole(self):
        for field in ("intensity", "period", "max", "entries"):
            for value in (10.0, True, "10", None, -1):
                self.refuses(lambda: Supervisor(Template(**{field: value})), 7, field)
        self.refuses(lambda: Supervisor(Template("always")), 7, "restart")
        self.refuses(lambda: Supervisor(Template(kind="process")), 7, "kind")
        self.refuses(lambda: Supervisor(Template(auto_shutdown="some")), 7, "auto_shutdown")

    def test_a_fault_survives_pickling(self):
        for fault in (Fault(9), Fault(7, "max")):
            again = pickle.loads(pickle.dumps(fault))
            self.assertEqual((again.number, again.field, str(again)), (fault.number, fault.field, str(fault)))

    def test_a_start_function_that_answers_nothing_is_named(self):
        def forgets(argument, moment):
            return None

        for start in (forgets, lambda *_: (0, 0), lambda *_: 0):
            with self.assertRaisesRegex(TypeError, "start function .* must answer"), Supervisor(Template(), start) as sup:
                try:
                    sup.start_child(0, "a")
                finally:
                    self.assertEqual((sup.stamp(), sup.which()), (0, []))
        with self.assertRaisesRegex(TypeError, "forgets"):
            Supervisor(Template(), forgets).start_child(0, "a")

    def test_an_async_start_function_is_refused_before_any_body(self):
        begun = []

        async def start(argument, moment):
            begun.append(argument)
            return RUNNING

        with self.assertRaisesRegex(TypeError, "async"):
            Supervisor(Template(), start)
        with self.assertRaisesRegex(TypeError, "must answer"):
            Supervisor(Template(), lambda *it: start(*it)).start_child(0, "a")
        self.assertEqual(begun, [])

    def test_a_history_is_read_in_linear_time(self):
        entries = [Entry("start", i, text=f"session-{i}", answer=failed(i), handle=1, serial=i) for i in range(16_000)]
        lines = [it.line() for it in entries]
        text = "".join(lines)

        def seconds(count):
            given, began = "".join(lines[:count]), time.process_time()
            self.assertEqual(list(Entry.read_all(given)), entries[:count])
            return time.process_time() - began

        # (collections take longer, the more there is)
        gc.disable()
        self.addCleanup(gc.enable)
        self.assertLess(min(seconds(16_000) for _ in range(3)), 3 * 8 * min(seconds(2_000) for _ in range(3)))
        read, rest = Entry.read(text)
        self.assertEqual((read, rest), (entries[0], text[len(entries[0].line()) :]))
        for bad in ("", "0 0 0 stop", "0 0 0 stop\n", "0 0 0 stop ignore", "caf\u00e9\n"):
            self.refuses(lambda: Entry.read(bad), 9, "line")
        with self.assertRaises(Fault):
            list(Entry.read_all(text + "0 0 0 stop"))


if __name__ == "__main__":
    unittest.main()
