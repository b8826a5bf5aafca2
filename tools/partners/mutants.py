"""Mutants: wrong recounts, each made by one change of the text of recount.py. A mutant stands in for a wrong program, since
to build one takes minutes. And drivers that do not translate one of the differences from OTP. Each has a name, the text that
it changes, and what it puts there; a driver's also has its file."""
import shutil
import types

import runs

RULES = (
    ("max_off_by_one", "len(self.rows) >= self.template.max", "len(self.rows) > self.template.max"),
    ("edge_of_the_period_is_out", "self.latest <= made + self", "self.latest < made + self"),
    ("intensity_off_by_one", "len(counting) + 1 > self", "len(counting) > self"),
    ("moments_go_back", "self.latest = max(self.latest, moment)", "self.latest = moment"),
    ("a_failed_attempt_is_forgotten", "self.rows[child][0] = False", "self.rows[child][0] = self.attempts.pop() is None"),
    ("a_shutdown_with_a_text_is_abnormal", ' or why.startswith(b"shutdown:")', ""),
    ("all_sees_no_waiting_row", "and not self.rows)", "and not any(row[0] for row in self.rows.values()))"),
    ("any_waits_for_all", 'auto == b"any" or (self.template.auto == b"all" and', 'auto != b"never" and ('),
    ("a_waiting_row_is_active", "sum(row[0] for row in self.rows.values())", "len(self.rows)"),
    ("a_restarted_child_keeps_its_number", "% (child, self.add(argument))",
     "% (child, self.rows.setdefault(child, [True, argument]) and child)"),
)
READING = (
    ("a_number_may_begin_with_zeros", 'rb"0|[1-9][0-9]{0,19}"', 'rb"[0-9]{1,20}"'),
    ("a_number_may_pass_64_bits", "int(token) > MOST:", "int(token) > 10 * MOST:"),
    ("a_code_may_pass_32_bits", "MOST_CODE = 4294967295", "MOST_CODE = 4294967296"),
    ("a_text_has_41_bytes", "{1,40}", "{1,41}"),
    ("a_text_has_the_byte_7f", r"\x7e]", r"\x7f]"),
    ("a_reason_may_be_shutdown_with_nothing", 'if token.startswith(b"shutdown:") else',
     'if token.startswith(b"shutdown:") and token != b"shutdown:" else'),
    ("a_carriage_return_ends_a_line", 'whole.split(b"\\n")\n    return',
     'whole.replace(b"\\r\\n", b"\\n").split(b"\\n")\n    return'),
    ("an_open_last_line_is_left_out", "    if left:\n        raise Fault(9, len(lines) + 1)\n", ""),
    ("a_bad_template_is_a_bad_line", "raise Fault(7, line)", "raise Fault(9, line)"),
    ("an_open_last_line_is_the_line_before", "raise Fault(9, len(lines) + 1)", "raise Fault(9, len(lines))"),
)

DIFFERENCES = (
    ("otp_differences.erl", "a_dead_process_is_ended", "dead_process(ok) -> {error, not_found};", ""),
    ("otp_differences.erl", "an_ended_waiting_row_is_counted", "fun(Count) -> Count - 1 end", "fun(Count) -> Count end"),
    ("otp_differences.erl", "an_ignored_restart_keeps_its_row", "maps:remove(undefined, Rows)", "Rows"),
    ("otp_differences.erl", "a_call_exits_when_down", "Why =:= noproc; Why =:= shutdown", "Why =:= never"),
    ("otp_clock.erl", "a_retry_comes_by_itself", "{held, Message}), ok", "{held, Message}), gen_server:cast(Self, Message)"),
)


def changed(file, name, old, new):
    """The text of a file with the change."""
    with open(f"{runs.HERE}/{file}", encoding="utf-8") as it:
        whole = it.read()
    if whole.count(old) != 1:
        raise runs.Missing(f"the text of the mutant {name} is {whole.count(old)} times in {file}, and not once: {old}")
    return whole.replace(old, new)


def made(change):
    """The recount as a module with this change."""
    module = types.ModuleType(change[0])
    exec(compile(changed("recount.py", *change), change[0], "exec"), module.__dict__)
    return module


def driver_made(change, folder):
    """Puts the driver with this change into a folder."""
    for name in runs.DRIVER:
        shutil.copy(f"{runs.HERE}/{name}.erl", folder)
    with open(f"{folder}/{change[0]}", "w", encoding="utf-8") as it:
        it.write(changed(*change))
