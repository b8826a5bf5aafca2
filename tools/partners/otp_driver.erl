%% Runs scripts and histories against the supervisor of the installed OTP, with strategy simple_one_for_one, and tells their
%% replies in the formats of docs/FORMATS.md.
%%
%% The supervisor is a process that supervisor:start_link/2 starts; it is asked by the functions of its module. Children are
%% processes, and an `exit` makes one end by itself. What became of a child is read from the supervisor's own table.
%%
%% Some rules are marked as own in docs/SUPERVISOR.md, since OTP has no counterpart. The driver keeps them, and they say
%% nothing about OTP: the ranges of the template (is_in_range), at most `max` rows (perform, start), numbers for processes
%% (start_child), moments that go back (arrive), stray exits (exit_of), and identifier lines when down (by_identifier).
%% Of the rest, otp_differences has what is translated.
-module(otp_driver).
-behaviour(supervisor).
-export([serve/0, init/1, start_child/2]).

-record(run, {sup, stage, max}).

%% Texts come on standard input and their results go to standard output, each in a packet that begins with its length in
%% four bytes. The first packet tells the release, or what is wrong. A text has the letter s or r before it.
serve() ->
    Port = open_port({fd, 0, 1}, [binary, {packet, 4}, eof]),
    logger:set_primary_config(level, none),
    case otp_clock:load() of
        ok -> port_command(Port, ["release ", erlang:system_info(otp_release)]), serve(Port);
        {error, Why} -> port_command(Port, ["error ", Why]), halt(2)
    end.

serve(Port) ->
    receive
        {Port, {data, <<Letter, Text/binary>>}} ->
            {Out, Err, Status} = run_apart(Letter, Text),
            Bytes = iolist_to_binary(Out),
            port_command(Port, [<<Status, (byte_size(Bytes)):32>>, Bytes, Err]),
            serve(Port);
        {Port, eof} ->
            halt(0)
    end.

%% Runs the text in a process of its own. If the driver fails, status 254 and standard error say so.
run_apart(Letter, Text) ->
    {_, Watch} = spawn_monitor(fun() -> exit({told, run(Letter, Text)}) end),
    receive
        {'DOWN', Watch, process, _, {told, Result}} -> Result;
        {'DOWN', Watch, process, _, Why} -> {"", io_lib:format("the driver failed: ~tp~n", [Why]), 254}
    end.

%% Standard output, standard error and status for a text.
run(Letter, Text) ->
    process_flag(trap_exit, true),
    Lines = case Letter of $s -> otp_formats:script_lines(Text); $r -> otp_formats:history_lines(Text) end,
    case begin_run(Letter, Lines) of
        {ok, Run} ->
            Result = case Letter of $s -> script(Run, tl(Lines), 2, []); $r -> history(Run, tl(Lines)) end,
            end_run(Run),
            Result;
        Fault -> Fault
    end.

begin_run(_, []) ->
    fault(9, 1, "");
begin_run(Letter, [Line | _]) ->
    Header = case Letter of $s -> otp_formats:script_header(Line); $r -> otp_formats:history_header(Line) end,
    case {Header, Header =/= bad andalso is_in_range(Header)} of
        {bad, _} -> fault(9, 1, "");
        {_, false} -> fault(7, 1, "");
        {#{max := Max}, true} ->
            Stage = ets:new(stage, [public]),
            ets:insert(Stage, [{made, 0}, {moment, 0}]),
            case supervisor:start_link(?MODULE, {Header, Stage}) of
                {ok, Sup} -> {ok, #run{sup = Sup, stage = Stage, max = Max}};
                {error, {start_spec, {bad_combination, _}}} -> fault(7, 1, "");
                {error, Why} -> {"", io_lib:format("this release refuses it: ~tp~n", [Why]), 255}
            end
    end.

is_in_range(#{intensity := Intensity, period := Period, max := Max}) ->
    Intensity =< 1000 andalso 1 =< Period andalso Period =< 86400 andalso 1 =< Max andalso Max =< 65536.

end_run(#run{sup = Sup, stage = Stage}) ->
    catch gen_server:stop(Sup, shutdown, infinity),
    ets:delete(Stage).

fault(Number, Line, Out) ->
    {Out, io_lib:format("fault ~b line ~b~n", [Number, Line]), 2}.

script(_, [], _, Out) ->
    {lists:reverse(Out), "", 0};
script(Run, [Line | Lines], Place, Out) ->
    case otp_formats:command(Line) of
        bad -> fault(9, Place, lists:reverse(Out));
        Command -> script(Run, Lines, Place + 1, [[reply(Run, Command), $\n] | Out])
    end.

history(Run, Lines) ->
    Entries = [otp_formats:entry(It) || It <- Lines],
    case length(lists:takewhile(fun(It) -> It =/= bad end, Entries)) of
        Good when Good < length(Entries) -> fault(9, Good + 2, "");
        _ -> {[[reply(Run, It), $\n] || It <- Entries], "", 0}
    end.

%% The callback of the supervisor: its flags and the child specification.
init({Template, Stage}) ->
    otp_clock:enter_stage(Stage),
    #{restart := Restart, kind := Kind, intensity := Intensity, period := Period, significant := Significant,
      auto := Auto} = Template,
    Flags = #{strategy => simple_one_for_one, intensity => Intensity, period => Period,
              auto_shutdown => case Auto of never -> never; any -> any_significant; all -> all_significant end},
    Child = #{id => child, start => {?MODULE, start_child, [Stage]}, restart => Restart, type => Kind,
              significant => Significant},
    {ok, {Flags, [Child]}}.

%% The start function, called by the supervisor. A child that runs has the next number; what was asked is noted.
start_child(Stage, Argument) ->
    Answer = case ets:lookup_element(Stage, answer, 2) of
                 by_argument -> otp_formats:script_answer(Argument, ets:lookup_element(Stage, given, 2));
                 Given -> Given
             end,
    false = ets:member(Stage, asked),
    case Answer of
        running ->
            Pid = spawn_link(fun live/0),
            Number = ets:update_counter(Stage, made, 1),
            ets:insert(Stage, [{asked, {running, Pid}}, {Pid, Number, Argument}, {Number, Pid}]),
            {ok, Pid};
        ignore -> ets:insert(Stage, {asked, ignore}), ignore;
        {failed, Code} -> ets:insert(Stage, {asked, Answer}), {error, Code}
    end.

live() ->
    receive {end_with, Reason} -> exit(Reason) end.

%% The reply to a command or an entry.
reply(Run, which) -> which(Run);
reply(Run, count) -> count(Run);
reply(Run, {by_identifier, Call, Id}) -> by_identifier(Run, Call, Id);
reply(Run, {Moment, Operation, Answer}) ->
    arrive(Run, Moment, Answer),
    case rows(Run) of
        down -> "error down";
        Rows -> perform(Operation, Run, Rows)
    end.

%% The clock of the stage shows the highest moment so far, as a monotonic clock does.
arrive(#run{stage = Stage}, Moment, Answer) ->
    ets:insert(Stage, [{moment, max(Moment, ets:lookup_element(Stage, moment, 2))}, {given, Moment}, {answer, Answer}]),
    [ets:delete(Stage, It) || It <- [asked, clock_was_read, held]].

%% The supervisor's own table, in which a child is a process or {restarting, process}; down if there is no supervisor.
rows(#run{sup = Sup}) ->
    case otp_differences:when_down(fun() -> sys:get_state(Sup, infinity) end) of
        down -> down;
        State -> element(2, element(otp_clock:field(dynamics), State))
    end.

perform(stop, #run{sup = Sup} = Run, Rows) ->
    ok = gen_server:stop(Sup, shutdown, infinity),
    down = rows(Run),
    all_ended(Rows),
    "stopped";
perform({start, _}, #run{max = Max}, Rows) when map_size(Rows) >= Max ->
    "error full";
perform({start, Argument}, #run{sup = Sup} = Run, _) ->
    case supervisor:start_child(Sup, [Argument]) of
        {ok, undefined} -> "ok undefined";
        {ok, Pid} -> ["ok ", number_of(Run, Pid)];
        {error, Code} -> ["error start_failed ", integer_to_list(Code)]
    end;
perform({terminate, Number}, Run, Rows) ->
    case terminate(Run, process_of(Run, Number), Rows) of
        ok -> "ok";
        {error, not_found} -> "error not_found"
    end;
perform({exit, Number, Reason}, Run, Rows) ->
    exit_of(Run, Number, process_of(Run, Number), Reason, Rows);
perform({retry, Number}, #run{sup = Sup} = Run, Rows) ->
    Waiting = {restarting, process_of(Run, Number)},
    gen_server:cast(Sup, {try_again_restart, Waiting}),
    case maps:is_key(Waiting, Rows) of
        true -> became(Run, Number, Waiting, Rows);
        false -> Rows = rows(Run), "error not_found"
    end.

terminate(#run{sup = Sup} = Run, Pid, Rows) ->
    Answer = supervisor:terminate_child(Sup, Pid),
    false = is_process_alive(Pid),
    Left = rows(Run),
    case {maps:is_key(Pid, Rows), maps:is_key({restarting, Pid}, Rows)} of
        {true, false} -> Left = maps:remove(Pid, Rows), Answer;
        {false, true} ->
            Left = maps:remove({restarting, Pid}, Rows),
            otp_differences:after_terminating_restarting(Sup),
            Answer;
        {false, false} -> Left = Rows, otp_differences:dead_process(Answer)
    end.

%% A child that runs ends with the reason. Else the supervisor hears that the dead process ended, which changes nothing.
exit_of(#run{sup = Sup} = Run, Number, Pid, Reason, Rows) when is_map_key(Pid, Rows) ->
    Pid ! {end_with, Reason},
    wait_for_exit(Sup, Pid),
    became(Run, Number, Pid, Rows);
exit_of(#run{sup = Sup} = Run, Number, Pid, Reason, Rows) ->
    Sup ! {'EXIT', Pid, Reason},
    Rows = rows(Run),
    ["stray ", integer_to_list(Number)].

%% The exit has come to the supervisor once the two are not linked any more.
wait_for_exit(Sup, Pid) ->
    case process_info(Sup, links) of
        {links, Links} -> lists:member(Pid, Links) andalso wait_for_exit(Sup, Pid);
        undefined -> false
    end.

%% The reply to an exit or a retry: what became of the row. The clock is read for an attempt, and for nothing else.
became(#run{sup = Sup, stage = Stage} = Run, Number, Row, Rows) ->
    Left = maps:remove(Row, Rows),
    Told = integer_to_list(Number),
    case {rows(Run), ets:lookup(Stage, asked), ets:member(Stage, clock_was_read)} of
        {down, [], true} -> all_ended(Rows), "gave_up";
        {down, [], false} -> all_ended(Rows), ["shut_down ", Told];
        {Now, [], false} when Now =:= Left -> ["removed ", Told];
        {Now, [{asked, {running, Pid}}], true} ->
            true = is_map_key(Pid, Now) andalso maps:remove(Pid, Now) =:= Left,
            true = argument_of(Run, Pid) =:= argument_of(Run, process(Row)),
            ["restarted ", Told, $\s, number_of(Run, Pid)];
        {Now, [{asked, ignore}], true} ->
            true = maps:remove(undefined, Now) =:= Left,
            otp_differences:after_ignored_restart(Sup),
            ["ignored ", Told];
        {Now, [{asked, {failed, Code}}], true} ->
            Waiting = {restarting, process(Row)},
            true = is_map_key(Waiting, Now) andalso maps:remove(Waiting, Now) =:= Left,
            [{held, {try_again_restart, Waiting}}] = ets:lookup(Stage, held),
            ["restarting ", Told, $\s, integer_to_list(Code)]
    end.

process({restarting, Pid}) -> Pid;
process(Pid) -> Pid.

all_ended(Rows) ->
    [] = [It || It <- maps:keys(Rows), is_process_alive(process(It))].

%% The process of a number; one that has ended where the number was not given.
process_of(#run{stage = Stage}, Number) ->
    case ets:lookup(Stage, Number) of
        [{_, Pid}] -> Pid;
        [] ->
            {Pid, Watch} = spawn_monitor(fun() -> ok end),
            receive {'DOWN', Watch, process, _, _} -> Pid end
    end.

number_of(#run{stage = Stage}, Pid) ->
    integer_to_list(ets:lookup_element(Stage, Pid, 2)).

argument_of(#run{stage = Stage}, Pid) ->
    ets:lookup_element(Stage, Pid, 3).

by_identifier(#run{sup = Sup}, Call, Id) ->
    case otp_differences:when_down(fun() -> supervisor:Call(Sup, Id) end) of
        {error, simple_one_for_one} -> "error simple_one_for_one";
        down -> "error simple_one_for_one"
    end.

%% The module tells the processes that run and how many are restarting; which these are is read from the table.
which(#run{sup = Sup, stage = Stage} = Run) ->
    case otp_differences:when_down(fun() -> supervisor:which_children(Sup) end) of
        down -> "error down";
        Listed ->
            Running = [{It, "running"} || {undefined, It, _, _} <- Listed, is_pid(It)],
            Waiting = [{It, "restarting"} || {restarting, It} <- maps:keys(rows(Run))],
            true = length([restarting || {undefined, restarting, _, _} <- Listed]) =:= length(Waiting),
            true = length(Listed) =:= length(Running) + length(Waiting),
            Shown = lists:sort([{ets:lookup_element(Stage, Pid, 2), argument_of(Run, Pid), How}
                                || {Pid, How} <- Running ++ Waiting]),
            [[["child ", integer_to_list(Number), $\s, How, $\s, Argument, $\n] || {Number, Argument, How} <- Shown],
             "end ", integer_to_list(length(Shown))]
    end.

count(#run{sup = Sup}) ->
    case otp_differences:when_down(fun() -> supervisor:count_children(Sup) end) of
        down -> "error down";
        Counts -> ["count" | [[$\s, atom_to_list(Name), $\s, integer_to_list(Count)] || {Name, Count} <- Counts]]
    end.
