"""Whether the Python module says who remains when a supervisor goes down."""
import unittest

from sapyguendo import IGNORE, RUNNING, Entry, Reason, Row, Supervisor, Template, failed


class Left(unittest.TestCase):
    def test_those_that_were_listed_are_left(self):
        answers = iter([RUNNING, RUNNING, RUNNING, failed(3), RUNNING])
        sup = Supervisor(Template("permanent"), lambda argument, moment: next(answers))
        for name in "abc":
            sup.start_child(0, name)
        self.assertEqual(sup.left(), [])
        self.assertEqual(sup.exit(0, 1, Reason.other("crash")).kind, "restarting")
        self.assertEqual(sup.left(), [])
        self.assertEqual(sup.exit(0, 2, Reason.normal()).kind, "gave_up")
        left = [Row(1, "restarting", "a"), Row(2, "running", "b"), Row(3, "running", "c")]
        self.assertEqual((sup.left(), sup.which()), (left, None))
        self.assertEqual(sup.stop(1).kind, "down")
        self.assertEqual(sup.left(), left)

    def test_none_are_left_after_an_entry_of_a_history(self):
        sup = Supervisor(Template())
        sup.step(Entry("start", 0, text="a", answer=RUNNING))
        self.assertEqual(sup.step(Entry("stop", 0, answer=IGNORE)).kind, "stopped")
        self.assertEqual(sup.left(), [])


if __name__ == "__main__":
    unittest.main()
