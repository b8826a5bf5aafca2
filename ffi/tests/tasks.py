"""Whether the supervisor of asyncio's tasks begins, restarts, tries again and ends them, and behaves as asyncio's users expect."""
import asyncio
import contextvars
import gc
import logging
import os
import pickle
import signal
import sys
import unittest
import weakref

from sapyguendo import IGNORE, Fault, GaveUp, NotStarted, Reason, Supervisor, TaskSupervisor, Template, failed

for name in ("sapyguendo", "asyncio"):  # (what is to be logged is asserted)
    logging.getLogger(name).addHandler(logging.NullHandler())
    logging.getLogger(name).propagate = False
SECONDS = 20


class Tasks(unittest.IsolatedAsyncioTestCase):
    def setUp(self):
        self.runs, self.crashes, self.cancelled, self.lines = [], 0, 0, []
        signal.signal(signal.SIGALRM, signal.SIG_DFL)
        signal.alarm(3 * SECONDS)

    def tearDown(self):
        signal.alarm(0)

    async def body(self, argument, *more):
        """Ends at once if its name begins with e, crashes if there are crashes to come, and else waits for ever."""
        self.runs.append((argument, *more))
        try:
            if argument[0] == "e":
                return
            if argument[0] == "c" and self.crashes > 0:
                self.crashes -= 1
                raise ValueError(argument)
            await asyncio.sleep(1000)
        except asyncio.CancelledError:
            self.cancelled += 1
            raise

    async def until(self, is_so):
        for _ in range(SECONDS * 100):
            if is_so():
                return
            await asyncio.sleep(0.01)
        self.fail("it has not come")

    def replayed(self):
        """The history, as the rules answer it."""
        supervisor, replies = Supervisor.replay("".join(self.lines))
        return supervisor, [it.kind for it in replies]

    async def test_a_thousand_tasks_and_a_hundred_crashes(self):
        self.crashes = 100
        template = Template("transient", intensity=200, max=1000)
        async with TaskSupervisor(template, self.body, history=self.lines.append) as sup:
            children = [await sup.start(f"{'c' if i < 100 else 'e' if i < 150 else 'p'}-{i}") for i in range(1000)]
            self.assertEqual([it.number for it in children], list(range(1, 1001)))
            with self.assertRaises(NotStarted) as full:
                await sup.start("p-1000")
            self.assertEqual(full.exception.reply.kind, "full")
            await self.until(lambda: len(self.runs) == 1100 and len(sup) == 950)
            self.assertEqual([it.number for it in sup.children()], [*range(151, 1001), *range(1001, 1101)])
            self.assertEqual(sorted(it.number for it in children[:100]), list(range(1001, 1101)))
            self.assertTrue(all(it.run.get_name() == it.argument for it in sup))
            supervisor, replies = self.replayed()
            self.assertEqual([it.number for it in supervisor], [it.number for it in sup])
            self.assertEqual((replies.count("restarted"), replies.count("removed"), replies.count("full")), (100, 50, 1))
        self.assertEqual((self.cancelled, len(sup), sup.is_down()), (950, 0, True))
        self.assertIn("closed", repr(sup._rules))
        self.assertEqual(self.replayed()[1][-1], "stopped")

    async def test_it_gives_up_from_the_last_crash(self):
        self.crashes, ended = 3, []
        with self.assertRaises(GaveUp) as it:
            async with TaskSupervisor(Template("permanent", intensity=2), self.body, history=self.lines.append) as sup:
                for i in range(10):
                    await sup.start(f"p-{i}")
                await asyncio.sleep(0)
                child = await sup.start("c-17", 17)
                try:
                    await asyncio.sleep(1000)
                finally:
                    ended.append(sup.is_down())
        gave_up = it.exception
        self.assertEqual((repr(gave_up.__cause__), gave_up.argument, gave_up.number), ("ValueError('c-17')", "c-17", 13))
        self.assertEqual(gave_up.reason, Reason.other("ValueError:_c-17"))
        self.assertEqual((ended, self.cancelled, child.run, len(sup)), ([True], 10, None, 0))
        self.assertEqual(self.replayed()[1][-3:], ["restarted", "restarted", "gave_up"])
        self.assertEqual(self.runs[-3:], [("c-17", 17)] * 3)
        again = pickle.loads(pickle.dumps(gave_up))
        self.assertEqual((again.args, str(again)), (gave_up.args, str(gave_up)))
        with self.assertRaises(NotStarted) as it:
            await sup.start("p-1")
        self.assertEqual((it.exception.reply.kind, pickle.loads(pickle.dumps(it.exception)).args), ("down", it.exception.args))

    async def test_whoever_joins_learns_of_a_give_up(self):
        self.crashes = 2
        with self.assertRaises(GaveUp):
            async with TaskSupervisor(Template(intensity=1), self.body) as sup:
                joins = asyncio.create_task(sup.join())
                await sup.start("c")
                await asyncio.sleep(1000)
        with self.assertRaises(GaveUp):
            await joins

    async def test_a_termination_is_no_crash(self):
        async with TaskSupervisor(Template(), self.body) as sup:
            child = await sup.start("p")
            task = child.run
            await asyncio.sleep(0)
            self.assertTrue(sup.terminate(child.number))
            self.assertFalse(sup.terminate(child.number))
            self.assertNotIn(child.number, sup)
            await sup.join()
            self.assertTrue(task.cancelled())
        self.assertEqual(len(self.runs), 1)

    async def test_it_joins_those_that_end(self):
        async with TaskSupervisor(Template("transient"), self.body) as sup:
            await sup.join()
            for _ in range(5):
                await sup.start("e")
            self.assertEqual((len(sup), 3 in sup, 6 in sup), (5, True, False))
            await sup.join()
            self.assertEqual((len(sup), list(sup), repr(sup)), (0, [], "<TaskSupervisor transient: 0 children>"))

    async def test_a_failed_restart_is_tried_again_after_a_delay(self):
        begun, loop = [], asyncio.get_running_loop()

        def body(argument):
            begun.append(loop.time())
            if len(begun) in (2, 3):
                raise OSError(7, "no socket")
            return failed(9) if len(begun) == 4 else self.body("p" if len(begun) > 4 else "c")

        self.crashes = 1
        template = Template("permanent", intensity=10)
        async with TaskSupervisor(template, body, retry_after=0.05, history=self.lines.append) as sup:
            child = await sup.start("x")
            await self.until(lambda: len(begun) == 5)
            self.assertEqual((child.number, child in sup.children(), child.run.done()), (2, True, False))
        self.assertTrue(all(after - before >= 0.04 for before, after in zip(begun[1:], begun[2:])))
        self.assertEqual(self.replayed()[1], ["started", "restarting", "restarting", "restarting", "restarted", "stopped"])
        self.assertIn("failed 7", "".join(self.lines))

    async def test_a_child_that_waits_for_another_try_can_be_terminated(self):
        begun = []

        def body(argument):
            begun.append(argument)
            if len(begun) > 1:
                raise OSError
            return self.body("c")

        self.crashes = 1
        async with TaskSupervisor(Template(intensity=1000), body, retry_after=0.02, history=self.lines.append) as sup:
            child = await sup.start("x")
            await self.until(lambda: len(begun) >= 2)
            self.assertIsNone(child.run)
            count = len(begun)
            self.assertTrue(sup.terminate(child.number))
            await sup.join()
            await asyncio.sleep(0.1)
        self.assertEqual((len(begun), self.replayed()[1][-2:]), (count, ["ended", "stopped"]))

    async def test_a_start_that_fails_or_is_ignored_begins_no_child(self):
        def body(argument):
            if argument == "raises":
                raise KeyError(argument)
            return {"ignored": IGNORE, "fails": failed(5)}.get(argument)

        async with TaskSupervisor(Template(), body) as sup:
            for argument, kind, code, cause in (("raises", "start_failed", 0, KeyError), ("ignored", "undefined", 0, None),
                                                ("fails", "start_failed", 5, None), ("no coroutine", "", 0, None)):
                with self.assertRaises(Exception) as it:
                    await sup.start(argument)
                if argument == "no coroutine":
                    self.assertEqual((it.exception.number, it.exception.field), (9, "text"))
                    continue
                reply = it.exception.reply
                self.assertEqual((reply.kind, reply.code, type(it.exception.__cause__)), (kind, code, cause or type(None)))
            with self.assertRaises(NotStarted) as it:
                await sup.start("nothing")
            self.assertIsInstance(it.exception.__cause__, TypeError)
            self.assertEqual(len(sup), 0)

    async def test_an_exception_of_the_block_ends_the_children_and_passes(self):
        with self.assertRaises(KeyError):
            async with TaskSupervisor(Template(), self.body) as sup:
                await sup.start("p")
                await asyncio.sleep(0)
                raise KeyError
        self.assertEqual(self.cancelled, 1)

    async def test_a_cancelled_block_ends_the_children_and_is_cancelled(self):
        async def block():
            async with TaskSupervisor(Template(), self.body) as sup:
                await sup.start("p")
                await sup.join()

        task = asyncio.create_task(block())
        await asyncio.sleep(0.01)
        task.cancel("why")
        with self.assertRaises(asyncio.CancelledError):
            await task
        self.assertEqual((task.cancelled(), self.cancelled), (True, 1))
        with self.assertRaises(asyncio.TimeoutError):
            await asyncio.wait_for(block(), 0.05)
        self.assertEqual(self.cancelled, 2)

    async def test_a_cancellation_while_the_children_end_is_not_lost(self):
        async def slow(argument):
            try:
                await asyncio.sleep(1000)
            finally:
                await asyncio.sleep(0.05)
                self.cancelled += 1

        async def block():
            async with TaskSupervisor(Template(), slow) as sup:
                await sup.start("p")
                await asyncio.sleep(0)

        task = asyncio.create_task(block())
        await asyncio.sleep(0.02)
        task.cancel()
        await asyncio.wait([task])
        self.assertEqual((task.cancelled(), self.cancelled), (True, 1))

    @unittest.skipIf(sys.version_info < (3, 11), "before asyncio.timeout and TaskGroup")
    async def test_in_a_timeout_and_in_a_task_group(self):
        with self.assertRaises(TimeoutError):
            async with asyncio.timeout(0.05):
                async with TaskSupervisor(Template(), self.body) as sup:
                    await sup.start("p")
                    await sup.join()
        self.assertEqual(self.cancelled, 1)

        async def gives_up():
            self.crashes = 2
            async with TaskSupervisor(Template(intensity=1), self.body) as sup:
                await sup.start("c")
                await sup.join()

        with self.assertRaises(BaseExceptionGroup) as it:
            async with asyncio.TaskGroup() as group:
                other = group.create_task(asyncio.sleep(1000))
                group.create_task(gives_up())
        self.assertEqual(([type(one) for one in it.exception.exceptions], other.cancelled()), ([GaveUp], True))
        with self.assertRaises(BaseExceptionGroup) as it:
            async with asyncio.TaskGroup() as group:
                group.create_task(self.waits(sup := TaskSupervisor(Template(), self.body)))
                await self.until(lambda: len(sup) == 1)
                raise KeyError
        self.assertEqual([type(one) for one in it.exception.exceptions], [KeyError])
        self.assertEqual((len(sup), self.cancelled), (0, 2))

    @unittest.skipIf(sys.version_info < (3, 11), "before Task.uncancel")
    async def test_nothing_of_its_cancellation_remains(self):
        self.crashes = 2
        with self.assertRaises(GaveUp):
            async with TaskSupervisor(Template(intensity=1), self.body) as sup:
                await sup.start("c")
                await asyncio.sleep(1000)
        self.assertEqual(asyncio.current_task().cancelling(), 0)

    async def waits(self, sup):
        async with sup:
            await sup.start("p")
            await sup.join()

    async def test_a_timeout_within_a_child_is_a_crash(self):
        async def body(argument):
            self.runs.append(argument)
            if len(self.runs) == 1:
                await asyncio.wait_for(asyncio.sleep(1000), 0.01)

        async with TaskSupervisor(Template("transient"), body, history=self.lines.append) as sup:
            await sup.start("x")
            await sup.join()
        self.assertEqual(self.replayed()[1], ["started", "restarted", "removed", "stopped"])
        self.assertIn("exit 1 TimeoutError running", "".join(self.lines))

    async def test_a_task_that_is_cancelled_by_others_is_shut_down(self):
        for restart, replies in (("transient", ["started", "removed"]), ("permanent", ["started", "restarted"])):
            self.lines.clear()
            async with TaskSupervisor(Template(restart), self.body, history=self.lines.append) as sup:
                child = await sup.start("p")
                await asyncio.sleep(0)
                child.run.cancel()
                await self.until(lambda: len(self.lines) == 3)
            self.assertEqual(self.replayed()[1], [*replies, "stopped"])
            self.assertIn("exit 1 shutdown:cancelled", "".join(self.lines))

    @unittest.skipIf(sys.version_info < (3, 11), "before Task.cancelling: the cancellations count as exits")
    async def test_all_tasks_of_a_program_are_cancelled(self):
        async def program():
            async with TaskSupervisor(Template(intensity=1), self.body) as sup:
                for i in range(20):
                    await sup.start(f"p-{i}")
                await asyncio.wait_for(asyncio.shield(sup.join()), 1000)

        before = asyncio.all_tasks()
        task = asyncio.create_task(program())
        await asyncio.sleep(0.01)
        for it in asyncio.all_tasks() - before:
            it.cancel()
        with self.assertRaises(asyncio.CancelledError):
            await task
        self.assertEqual(self.cancelled, 20)

    async def test_context_variables_are_those_of_the_start(self):
        session, seen = contextvars.ContextVar("session"), []

        async def body(argument):
            seen.append((argument, session.get()))
            session.set("changed by the child")
            await asyncio.sleep(0)
            if len(seen) < 4:
                raise ValueError

        async with TaskSupervisor(Template("transient", intensity=5), body) as sup:
            session.set("a")
            await sup.start("of-a")
            session.set("b")
            await sup.start("of-b")
            session.set("c")
            await sup.join()
        self.assertEqual(sorted(set(seen)), [("of-a", "a"), ("of-b", "b")])
        self.assertGreaterEqual(len(seen), 4)

        def begins(argument):
            session.set("changed by the body")
            return body(argument)

        async with TaskSupervisor(Template("transient", intensity=5), begins) as sup:
            await sup.start("of-c")
            self.assertEqual(session.get(), "c")

    async def test_a_body_that_ignores_cancellation(self):
        async def ignores(argument, most):
            for _ in range(most):
                try:
                    await asyncio.sleep(1000)
                except asyncio.CancelledError:
                    self.cancelled += 1

        async with TaskSupervisor(Template("temporary"), ignores, timeout=0.05) as sup:
            await sup.start("once", 2)
            await asyncio.sleep(0)
        self.assertEqual(self.cancelled, 2)
        self.cancelled = 0
        with self.assertLogs("sapyguendo", "ERROR") as logged:
            async with TaskSupervisor(Template("temporary"), ignores, timeout=0.05) as sup:
                task = (await sup.start("stuck", 3)).run
                await asyncio.sleep(0)
        self.assertEqual((self.cancelled, len(logged.records), "stuck" in logged.output[0]), (2, 1, True))
        await asyncio.wait_for(sup.join(), 1)
        task.cancel()
        await task

    async def test_a_crash_while_it_is_cancelled_is_logged(self):
        async def body(argument):
            try:
                await asyncio.sleep(1000)
            finally:
                raise ValueError(argument)

        with self.assertLogs("sapyguendo", "WARNING") as logged:
            async with TaskSupervisor(Template(), body) as sup:
                await sup.start("x")
                await asyncio.sleep(0)
        self.assertIn("ValueError", logged.output[0])

    async def test_an_interrupt_is_restarted_by_nobody(self):
        def stopped(interrupt):
            async def body(argument):
                self.runs.append(argument)
                await asyncio.sleep(0)
                raise interrupt

            async def program():
                async with TaskSupervisor(Template(intensity=100), body) as sup:
                    await sup.start("x")
                    await sup.join()

            loop = asyncio.new_event_loop()
            try:
                task = loop.create_task(program())
                for _ in range(2):
                    try:
                        loop.run_until_complete(task)
                    except (KeyboardInterrupt, SystemExit) as it:
                        last = it
                return last
            finally:
                loop.close()

        for interrupt in (KeyboardInterrupt(), SystemExit(3)):
            self.runs.clear()
            self.assertIs(await asyncio.get_running_loop().run_in_executor(None, stopped, interrupt), interrupt)
            self.assertEqual(len(self.runs), 1)

    async def test_a_full_history_takes_it_down(self):
        with self.assertRaises(Fault) as it:
            async with TaskSupervisor(Template(entries=2), self.body) as sup:
                await sup.start("p")
                await sup.start("e")
                await asyncio.sleep(1000)
        self.assertEqual((it.exception.number, self.cancelled), (2, 1))

    async def test_a_history_without_room_for_the_stop(self):
        with self.assertRaises(Fault):
            async with TaskSupervisor(Template(entries=1), self.body) as sup:
                await sup.start("p")
                await asyncio.sleep(0)
        self.assertEqual((self.cancelled, getattr(asyncio.current_task(), "cancelling", int)()), (1, 0))

    async def test_a_history_that_can_not_be_written_takes_it_down(self):
        def writes(line):
            self.lines.append(line)
            if len(self.lines) == 3:
                raise OSError("the disk is full")

        with self.assertRaisesRegex(OSError, "full"):
            async with TaskSupervisor(Template(), self.body, history=writes) as sup:
                await sup.start("p")
                await sup.start("p")
                await asyncio.sleep(1000)

    async def test_the_first_cause_is_told(self):
        def writes(line):
            if "exit" in line:
                raise OSError

        with self.assertRaises(GaveUp):
            self.crashes = 1
            async with TaskSupervisor(Template(intensity=0), self.body, history=writes) as sup:
                await sup.start("c")
                await asyncio.sleep(1000)

    async def test_moments_are_the_clock_s_whole_seconds(self):
        now = [1000.75]
        async with TaskSupervisor(Template(intensity=1), self.body, history=self.lines.append, clock=lambda: now[0]) as sup:
            for moment in (0, 10.5, 20.25):
                now[0] = 1000.75 + moment
                self.crashes = 1
                runs = len(self.runs)
                await sup.start("c")
                await self.until(lambda: len(self.runs) == runs + 2)
        self.assertEqual([line.split()[2] for line in self.lines[1:]], ["0", "0", "10", "10", "20", "20", "20"])
        self.assertEqual(self.replayed()[1].count("restarted"), 3)

    async def test_a_significant_child_ends_all(self):
        template = Template("transient", significant=True, auto_shutdown="any")
        async with TaskSupervisor(template, self.body) as sup:
            await sup.start("p")
            await asyncio.sleep(0)
            await sup.start("e")
            await sup.join()
            self.assertTrue(sup.is_down())
        self.assertEqual(self.cancelled, 1)

    async def test_a_child_may_use_its_supervisor(self):
        async def body(argument):
            self.runs.append(argument)
            if argument == "outer":
                await sup.start("inner")
                sup.terminate(next(it.number for it in sup if it.argument == "outer"))
            await asyncio.sleep(1000)

        async with TaskSupervisor(Template(), body) as sup:
            await sup.start("outer")
            await self.until(lambda: self.runs == ["outer", "inner"])
            await self.until(lambda: [it.argument for it in sup] == ["inner"])

    async def test_a_start_within_a_start(self):
        def body(argument):
            if argument == "outer":
                coroutine = sup.start("inner")
                with self.assertRaises(StopIteration):
                    coroutine.send(None)
            return self.body(argument)

        async with TaskSupervisor(Template("temporary", max=1), body, history=self.lines.append) as sup:
            with self.assertRaises(NotStarted) as it:
                await sup.start("outer")
            self.assertEqual(it.exception.reply.kind, "full")
            self.assertEqual([it.argument for it in sup], ["inner"])
            sup.terminate(1)
            await sup.join()
        self.assertEqual(self.replayed()[1], ["started", "full", "ended", "stopped"])

    async def test_outside_its_block_and_loop_it_starts_nothing(self):
        sup = TaskSupervisor(Template(), self.body)
        for call in (lambda: sup.start("p"), sup.join):
            with self.assertRaisesRegex(RuntimeError, "not entered"):
                await call()
        async with sup:
            def elsewhere():
                with self.assertRaisesRegex(RuntimeError, "not entered"):
                    asyncio.run(sup.start("p"))

            await asyncio.get_running_loop().run_in_executor(None, elsewhere)
            self.assertEqual(len(sup), 0)

    async def test_a_fork_leaves_the_parent_alone(self):
        self.crashes = 0
        async with TaskSupervisor(Template(intensity=5), self.body) as sup:
            for i in range(5):
                await sup.start(f"c-{i}")
            await asyncio.sleep(0)
            child = os.fork()
            if child == 0:
                status = 1
                try:
                    signal.alarm(10)
                    numbers = [it.number for it in sup]
                    try:
                        await sup.start("p")
                    except RuntimeError:
                        sup.terminate(1)
                        await sup.__aexit__(None, None, None)
                        status = 0 if numbers == [1, 2, 3, 4, 5] else 2
                finally:
                    os._exit(status)
            self.assertEqual(os.waitpid(child, 0)[1], 0)
            self.crashes = 1
            next(iter(sup)).run.cancel()
            await self.until(lambda: len(self.runs) == 7)
            self.assertEqual([it.number for it in sup], [2, 3, 4, 5, 7])


class Closed(unittest.TestCase):
    def test_a_loop_that_closes_early(self):
        async def body(argument):
            await asyncio.sleep(1000)

        async def program(sup):
            async with sup:
                for i in range(10):
                    await sup.start(f"p-{i}")
                await sup.join()

        sup, loop, said = TaskSupervisor(Template(), body), asyncio.new_event_loop(), []
        task = loop.create_task(program(sup))
        loop.run_until_complete(asyncio.sleep(0.01))
        loop.close()
        self.assertEqual((len(sup), sup.terminate(3), len(sup)), (10, True, 9))
        with self.assertRaises(RuntimeError):
            sup.start("p").send(None)
        before, sys.unraisablehook = sys.unraisablehook, said.append
        try:
            there = weakref.ref(sup)
            del task, sup
            gc.collect()
        finally:
            sys.unraisablehook = before
        self.assertEqual(([str(it.exc_value) for it in said], there()), ([], None))

    def test_a_block_that_is_closed_with_its_loop(self):
        async def program():
            async with TaskSupervisor(Template(), lambda argument: asyncio.sleep(1000)) as sup:
                await sup.start("p")
                supervisors.append(sup)
                await sup.join()

        supervisors, loop = [], asyncio.new_event_loop()
        block = program()
        task = loop.create_task(block)
        loop.run_until_complete(asyncio.sleep(0.01))
        loop.close()
        block.close()
        (sup,) = supervisors
        self.assertEqual((sup.is_down(), list(sup)), (True, []))
        sup.stop()
        del task


if __name__ == "__main__":
    unittest.main()
