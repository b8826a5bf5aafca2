"""Texts by seed through several partners, whose results must be the same: standard output, standard error and status."""
import argparse
import collections
import itertools
import multiprocessing
import os
import re
import signal
import sys
import tempfile
import time

import mutants
import recount
import runs

CHUNK = 50
NOT_RUN = 255

Difference = collections.namedtuple("Difference", "seed kind text results")
Outcome = collections.namedtuple("Outcome", "ran tally not_run difference")


class Comparison:
    """What a command compares: how a text is made of a seed, whether OTP takes part, and the command's mutants, each of which
    must be caught within a number of seeds."""

    def __init__(self, name, says, text, has_otp, changes, most):
        self.name, self.says, self.text, self.has_otp, self.changes, self.most = name, says, text, has_otp, changes, most
        self.program, self.otp = None, None

    def ready(self, program):
        """Makes ready what runs texts in this process. Without a program there is one partner less."""
        self.program = program
        self.otp = runs.Otp() if self.has_otp else None

    def others(self, kind, text):
        """The results of all but the recount, by partner. A release of OTP that refuses the supervisor has none."""
        found = {"program": runs.by_program(self.program, kind, text)} if self.program else {}
        if self.otp:
            result = self.otp.run(kind, text)
            if result[2] != NOT_RUN:
                found["OTP"] = result
        return found

    def chunk(self, seeds):
        """Runs the seeds, up to the first difference."""
        tally, not_run = collections.Counter(), 0
        for seed in seeds:
            kind, text = self.text(seed)
            results = {**self.others(kind, text), "recount": recount.answered(kind, text)}
            not_run += self.has_otp and "OTP" not in results
            if len(set(results.values())) > 1:
                return Outcome(seed + 1 - seeds[0], tally, not_run, Difference(seed, kind, text, results))
            tally.update(words_of(kind, results["recount"]))
        return Outcome(len(seeds), tally, not_run, None)


def words_of(kind, result):
    """What the tally counts: the kind of the text, its fault or none, and the words of each reply, with n for a number."""
    out, err, _status = result
    yield f"{kind}: {(err[: len('fault 0')] or b'no fault').decode()}"
    for line in out.splitlines():
        is_of_query = line.startswith((b"child ", b"count "))
        yield line.split(b" ")[0].decode() if is_of_query else re.sub(rb"[0-9]+", b"n", line).decode()


# Many seeds


def begin_worker(comparison, program):
    global WORKER
    signal.signal(signal.SIGINT, signal.SIG_IGN)
    WORKER = comparison
    WORKER.ready(program)


def run_chunk(seeds):
    return WORKER.chunk(seeds)


def run_all(comparison, program, seeds, jobs):
    """Runs the seeds in order, by several processes at a time, up to the first difference."""
    chunks = [seeds[it : it + CHUNK] for it in range(0, len(seeds), CHUNK)]
    ran, tally, not_run = 0, collections.Counter(), 0
    with multiprocessing.get_context("fork").Pool(jobs, begin_worker, (comparison, program)) as pool:
        for outcome in pool.imap(run_chunk, chunks):
            ran, not_run = ran + outcome.ran, not_run + outcome.not_run
            tally.update(outcome.tally)
            if outcome.difference:
                break
    return Outcome(ran, tally, not_run, outcome.difference)


def printable(line):
    """A line for people: a byte that cannot be printed is escaped."""
    return re.sub(rb"[^\x20-\x7e]", lambda it: b"\\x%02x" % it[0][0], line).decode()


def lines_of(data):
    """The lines of a text for people."""
    *lines, left = [printable(it) for it in data.split(b"\n")]
    return lines + ([f"{left}   (without a line feed)"] if left else [])


def told(difference):
    """A difference for people: the input, what each partner made of it, and where they part."""
    told_lines = [f"seed {difference.seed} differs: {difference.kind}", "-- input", *lines_of(difference.text)]
    for partner, result in difference.results.items():
        told_lines += [f"-- {partner}", *lines_of_result(result)]
    return "\n".join([*told_lines, "-- they part here", *parting(difference.results)])


def lines_of_result(result):
    out, err, status = result
    return [*lines_of(out), *(f"standard error: {it}" for it in lines_of(err)), f"status {status}"]


def parting(results):
    """The first line that is not the same for all partners, one of these a line."""
    columns = [lines_of_result(it) for it in results.values()]
    for place, lines in enumerate(itertools.zip_longest(*columns, fillvalue="nothing"), 1):
        if len(set(lines)) > 1:
            return [f"line {place}, {partner}: {line}" for partner, line in zip(results, lines)]
    return []


# The mutants


def self_test(comparison):
    """Tries the mutants of the command and, where OTP takes part, that each difference from it is met."""
    comparison.ready(None if comparison.has_otp else runs.program())
    if comparison.has_otp and int(comparison.otp.release) > 26:
        raise runs.Missing(f"the self-test needs OTP 24 to 26, and {comparison.otp.release} is installed")
    left = mutants_left(comparison)
    if comparison.has_otp:
        left += [it[1] for it in mutants.DIFFERENCES if not is_met(comparison, it)]
    for name in left:
        print(f"{name}: NOT caught within {comparison.most} seeds")
    tried = len(comparison.changes) + (len(mutants.DIFFERENCES) if comparison.has_otp else 0)
    print(f"{comparison.name}: {tried - len(left)} of {tried} caught")
    return 1 if left else 0


def mutants_left(comparison):
    """Tries each mutant as if it were the program: it is caught where a text is found on which it differs from OTP or, where
    OTP takes no part, from the program. The right recount must not differ. Returns the names of those that are not caught."""
    left = {it[0]: mutants.made(it) for it in comparison.changes}
    for seed in range(comparison.most):
        kind, text = comparison.text(seed)
        for partner, right in comparison.others(kind, text).items():
            if recount.answered(kind, text) != right:
                print(told(Difference(seed, kind, text, {partner: right, "recount": recount.answered(kind, text)})))
                return [*left, "the recount without a change"]
            for name in [it for it in left if left[it].answered(kind, text) != right]:
                tell_caught(name, seed, {partner: right, "mutant": left.pop(name).answered(kind, text)})
        if not left:
            break
    return list(left)


def is_met(comparison, change):
    """Whether a driver that does not translate this difference from OTP answers otherwise than the recount."""
    with tempfile.TemporaryDirectory(prefix="partners-") as folder:
        mutants.driver_made(change, folder)
        otp = runs.Otp(folder)
    for seed in range(comparison.most):
        kind, text = comparison.text(seed)
        results = {"OTP": otp.run(kind, text), "recount": recount.answered(kind, text)}
        if results["OTP"] != results["recount"]:
            otp.close()
            tell_caught(change[1], seed, results)
            return True
    return False


def tell_caught(name, seed, results):
    print(f"{name}: caught by seed {seed}: {'; '.join(parting(results))}", flush=True)


# The command


def words_given(comparison):
    parser = argparse.ArgumentParser(prog=f"tools/partners/{comparison.name}", description=comparison.says,
                                     epilog="Exit status: 0 all are the same, 1 a difference or a mutant that is not caught, 2 "
                                     "something is missing. SUPLOAD=PATH in the environment names another program.")
    parser.add_argument("count", metavar="N", type=int, nargs="?", default=1000, help="how many seeds (1000)")
    parser.add_argument("--from", dest="first", metavar="SEED", type=int, default=0, help="the first seed (0)")
    parser.add_argument("--jobs", metavar="J", type=int, default=min(4, os.cpu_count() or 1), help="processes at a time")
    parser.add_argument("--show", metavar="SEED", type=int, help="write the text of this seed, and run nothing")
    parser.add_argument("--self-test", action="store_true", help=f"try mutants, each of which must be caught within "
                        f"{comparison.most} seeds")
    if not comparison.has_otp:
        parser.add_argument("--with-otp", action="store_true", help="also run them through the supervisor of the installed OTP")
    given = parser.parse_args()
    if given.count < 1 or given.first < 0 or given.jobs < 1:
        parser.error("there are numbers from 1, and seeds from 0")
    return given


def tell_release():
    otp = runs.Otp()
    otp.close()
    if otp.release != "26":
        runs.say(f"the installed OTP is release {otp.release}, and not 26")


def perform(comparison, given):
    if given.show is not None:
        kind, text = comparison.text(given.show)
        runs.say(f"seed {given.show}: {kind}")
        sys.stdout.buffer.write(text)
        return 0
    if given.self_test:
        return self_test(comparison)
    comparison.has_otp = comparison.has_otp or given.with_otp
    if comparison.has_otp:
        tell_release()
    begin = time.monotonic()
    outcome = run_all(comparison, runs.program(), range(given.first, given.first + given.count), given.jobs)
    seconds = time.monotonic() - begin
    if outcome.difference:
        print(told(outcome.difference))
    print("replies: " + ", ".join(f"{word} {count}" for word, count in sorted(outcome.tally.items())))
    left_out = f", {outcome.not_run} of them without OTP, whose release refuses such a supervisor" if outcome.not_run else ""
    print(f"{comparison.name}: {outcome.ran} seeds in {seconds:.1f} seconds{left_out}: "
          f"{'a difference' if outcome.difference else 'no difference'}")
    return 1 if outcome.difference else 0


def main(comparison):
    try:
        return perform(comparison, words_given(comparison))
    except runs.Missing as why:
        runs.say(f"{comparison.name}: {why}")
        return 2
