"""Wrong records of a round over one desk, each made by one change of a recorded one. A wrong record stands in for a wrong desk.
Each has a name, the rule of desk_checker.py that is broken first, and a function that changes a record and answers whether it
found where."""
import collections
import itertools

import desk_checker

Mutant = collections.namedtuple("Mutant", "name rule change")


def changed(mutant, text):
    """The record of this text with the change, or None if there is no place for it."""
    record = desk_checker.Record(text)
    return record if mutant.change(record) else None


def middle(found):
    """The one in the middle, so that the change is neither at the beginning nor at the end."""
    return found[len(found) // 2] if found else None


def updates_of_one(record):
    return [it for it in record.calls if it.name == "update" and it.stamp is not None]


def following(record):
    """Each call with the one before it of the same handle or asker."""
    last = {}
    for call in record.calls:
        if (call.thread, call.asker) in last:
            yield last[call.thread, call.asker], call
        last[call.thread, call.asker] = call


def older(record, call):
    """A query for the same with another answer, at a lower front."""
    return middle([it for it in record.calls
                   if it.is_query() and it.words == call.words and it.answer != call.answer and it.after < call.after])


def stale_query(record):
    call = middle([it for it in record.calls if it.is_query() and older(record, it)])
    if call:
        call.answer = older(record, call).answer
    return call


def query_at_a_lower_front(record):
    found = [(call, old) for call in record.calls if call.is_query() for old in [older(record, call)] if old and old.after < call.before]
    call, old = middle(found) or (None, None)
    if call:
        call.answer, call.after = old.answer, old.after
    return call


def own_write_is_not_seen(record):
    found = middle([(before, call) for before, call in following(record)
                    if before.is_update() and before.stamp and before.replies()[0] and call.is_query() and call.after == call.before])
    if found:
        found[1].before = found[1].after = found[0].stamp - 1
    return found


def lost_update(record):
    call = middle(updates_of_one(record))
    if call:
        record.calls.remove(call)
    return call


def two_at_one_place(record):
    call = middle([it for it in updates_of_one(record) if it.stamp - 1 > it.before])
    if call:
        call.stamp = call.after = call.stamp - 1
    return call


def ticket_ahead(record):
    call = middle(updates_of_one(record))
    if call:
        call.after = call.stamp - 1
    return call


def reply_of_another(record):
    starts = [it for it in updates_of_one(record) if it.words[2] == "start" and it.answer.startswith("ok ") and it.answer[3].isdigit()]
    first = middle(starts)
    second = middle([it for it in starts if it.thread != first.thread]) if first else None
    if second:
        first.answer, second.answer = second.answer, first.answer
    return second


def batch_in_another_order(record):
    call = middle([it for it in record.calls if it.name == "batch" and len(set(it.replies()[0])) > 1])
    if call:
        replies, fault = call.replies()
        call.answer = " / ".join([*replies[1:], replies[0], fault or "done"])
    return call


def real_time_inversion(record):
    updates = record.updates()
    pair = middle([(early, late) for early, late in zip(updates, updates[1:])
                   if early.call.thread != late.call.thread and late.call.called < early.call.called])
    if pair:
        for call in record.calls:
            call.called, call.returned = 10 * call.called, 10 * call.returned
        pair[1].call.returned = pair[0].call.called - 1
    return pair


def learnt_is_forgotten(record):
    call = middle([it for it in record.calls if it.name == "learn" and it.before < it.stamp])
    if call:
        call.after = call.before
    return call


def write_before_a_read(record):
    call = middle(updates_of_one(record))
    if call:
        call.before = call.stamp
    return call


def ticket_lacks_an_update(record):
    updates = record.updates()
    found = middle([(call, it) for call in record.calls if call.name == "ticket" for it in updates
                    if call.before < it.place <= call.stamp and it.call.returned < call.called])
    if found:
        found[0].stamp = found[0].after = found[1].place - 1
    return found


def query_of_what_comes(record):
    last = {(it.thread, it.asker): it for it in record.calls}
    updates = record.updates()
    found = middle([(call, it) for call in last.values() if call.is_query() for it in updates
                    if it.call.called > call.returned and it.place > call.after])
    if found:
        found[0].after = found[1].place
    return found


def part_of_a_batch(record):
    last = {(it.thread, it.asker): it for it in record.calls}
    batches = [it for it in record.calls if it.name == "batch" and it.stamp is not None and len(it.replies()[0]) > 1]
    # (for each number of updates from the first on, the last moment at which one of them was called)
    latest = list(itertools.accumulate((it.call.called for it in record.updates()), max))
    found = middle([(call, it) for call in last.values() if call.is_query() for it in batches
                    if call.before < it.stamp and latest[it.stamp - 2] < call.returned])
    if found:
        found[0].after = found[1].stamp - 1
    return found


def refusal_without_a_reason(record):
    call = middle([it for it in updates_of_one(record) if it.after != record.entries])
    if call:
        call.stamp, call.answer = None, desk_checker.FULL
    return call


def of_journal(record, change):
    """Changes the lines after the first one of the journal, if there are two that differ."""
    first, *lines = record.journal.splitlines(True)
    pairs = [at for at, (line, then) in enumerate(zip(lines, lines[1:])) if line != then]
    at = middle(pairs)
    if at is not None:
        change(lines, at)
        record.journal = "".join([first, *lines])
    return at is not None


def journal_lacks_an_entry(record):
    return of_journal(record, lambda lines, at: lines.pop(at))


def journal_in_another_order(record):
    return of_journal(record, lambda lines, at: lines.insert(at, lines.pop(at + 1)))


def torn_journal(record):
    return of_journal(record, lambda lines, at: lines.append(lines.pop()[:-1]))


ALL = (
    Mutant("a_stale_query", "query", stale_query),
    Mutant("a_query_at_a_lower_front", "front that goes back", query_at_a_lower_front),
    Mutant("an_own_write_is_not_seen", "front that goes back", own_write_is_not_seen),
    Mutant("a_lost_update", "lost update", lost_update),
    Mutant("two_updates_at_one_place", "two updates at one place", two_at_one_place),
    Mutant("a_ticket_ahead_of_its_front", "ticket ahead of its front", ticket_ahead),
    Mutant("a_reply_that_is_anothers", "reply", reply_of_another),
    Mutant("a_batch_in_another_order", "reply", batch_in_another_order),
    Mutant("a_real_time_inversion", "real time", real_time_inversion),
    Mutant("a_ticket_that_is_learnt_and_forgotten", "learn", learnt_is_forgotten),
    Mutant("a_write_before_a_read", "writes follow reads", write_before_a_read),
    Mutant("a_ticket_for_all_that_lacks_an_update", "ticket for all", ticket_lacks_an_update),
    Mutant("a_query_of_what_is_yet_to_come", "seen early", query_of_what_comes),
    Mutant("a_part_of_a_batch_is_seen", "part of a batch", part_of_a_batch),
    Mutant("a_refusal_without_a_reason", "refusal", refusal_without_a_reason),
    Mutant("a_journal_that_lacks_an_entry", "journal", journal_lacks_an_entry),
    Mutant("a_journal_in_another_order", "journal", journal_in_another_order),
    Mutant("a_torn_journal", "journal", torn_journal),
)
