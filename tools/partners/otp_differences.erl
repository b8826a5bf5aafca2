%% Where Sapyguendo differs from OTP: each difference that docs/DECISIONS.md lists, at one place, and nothing else.
%% The two of them that are no translation of a reply are elsewhere:
%%   "Automatic retry": otp_clock:hold/2 holds the supervisor's message to itself, and otp_driver sends it on for `retry`.
%%   "Automatic shutdown with simple_one_for_one": otp_driver:begin_run/2 tells a release that does not allow it.
-module(otp_differences).
-export([dead_process/1, after_terminating_restarting/1, after_ignored_restart/1, when_down/1]).

%% "A dead process that is no child." OTP answers ok for a process that is not alive.
dead_process(ok) -> {error, not_found};
dead_process(Answer) -> Answer.

%% "active after a restarting child was terminated." OTP does not lower its count of restarting children there.
after_terminating_restarting(Sup) ->
    change(Sup, dynamic_restarts, fun(Count) -> Count - 1 end).

%% "A restart that is answered Ignore." Before OTP 27 the row stays, with an undefined process.
after_ignored_restart(Sup) ->
    change(Sup, dynamics, fun({Kind, Rows}) -> {Kind, maps:remove(undefined, Rows)} end).

change(Sup, Field, Change) ->
    Place = otp_clock:field(Field),
    sys:replace_state(Sup, fun(State) -> setelement(Place, State, Change(element(Place, State))) end),
    ok.

%% "Calls on a supervisor that is down." In OTP the caller exits, since there is no process.
when_down(Call) ->
    try
        Call()
    catch
        exit:{Why, _} when Why =:= noproc; Why =:= shutdown -> down
    end.
