%% The same work by OTP's supervisor over gen_server children, all in this module. Each child is a process, which any of the
%% scheduler's threads runs. A start is over once the child's init has run, as supervisor:start_child/2 has it.
-module(live).
-export([main/1, init/1, handle_call/3, handle_cast/2, start_child/1, terminate/2]).

-define(SINGLES, 1000).
-define(ASKED, 20000).
-define(COUNTS, 20000).
-define(SENT, 400000).
-define(SOME, 100).
-define(IDLE, 2).
-define(MOST, 65536).

-record(child, {parent, heard, asked = 0, counted = 0}).

%% the supervisor, and a child
init({supervisor, Parent, Heard}) ->
    {ok, {#{strategy => simple_one_for_one, intensity => ?SINGLES, period => 1},
          [#{id => child, start => {?MODULE, start_child, [{child, Parent, Heard}]}, restart => transient}]}};
init({child, Parent, Heard}) ->
    Parent ! {began, self()},
    {ok, #child{parent = Parent, heard = Heard}}.

start_child(Argument) -> gen_server:start_link(?MODULE, Argument, []).

handle_call(ask, _From, Child = #child{asked = Asked}) ->
    {reply, Asked + 1, Child#child{asked = Asked + 1}}.

%% The last child that has counted all tells the parent.
handle_cast({count, All, Alive}, Child = #child{counted = Counted}) when Counted + 1 =:= All ->
    case atomics:add_get(Child#child.heard, 1, 1) rem Alive of
        0 -> Child#child.parent ! heard;
        _ -> ok
    end,
    {noreply, Child#child{counted = All}};
handle_cast({count, _All, _Alive}, Child = #child{counted = Counted}) ->
    {noreply, Child#child{counted = Counted + 1}};
handle_cast('end', Child) -> {stop, normal, Child};
handle_cast(crash, Child) -> {stop, crash, Child}.

terminate(_Reason, _Child) -> ok.

now_nanoseconds() -> erlang:monotonic_time(nanosecond).

tell(What, Alive, Took, Times, Answer) ->
    io:format("~s, ~b alive: ~b ns, ~b times, answer ~b~n", [What, Alive, Took, Times, Answer]).

%% the same where what comes of it hangs on the schedule
tell_loose(What, Alive, Took, Times) ->
    io:format("~s, ~b alive: ~b ns, ~b times, answer -~n", [What, Alive, Took, Times]).

resident() ->
    {ok, Text} = file:read_file("/proc/self/statm"),
    [_, Pages | _] = binary:split(Text, <<" ">>, [global]),
    binary_to_integer(Pages) * 4096.

%% the processor time of all threads, in nanoseconds
processor_time() ->
    {ok, Tasks} = file:list_dir("/proc/self/task"),
    lists:sum([time_of(Task) || Task <- Tasks]).

time_of(Task) ->
    case file:read_file("/proc/self/task/" ++ Task ++ "/schedstat") of
        {ok, Text} -> binary_to_integer(hd(binary:split(Text, <<" ">>)));
        _ -> 0
    end.

count(Supervisor) -> proplists:get_value(active, supervisor:count_children(Supervisor)).

await_count(Supervisor, Wanted) ->
    case count(Supervisor) of
        Wanted -> ok;
        _ -> await_count(Supervisor, Wanted)
    end.

start(Supervisor) ->
    {ok, Child} = supervisor:start_child(Supervisor, []),
    receive {began, Child} -> Child end.

time_starts(Supervisor, Alive) ->
    Before = resident(),
    Start = now_nanoseconds(),
    Children = [start(Supervisor) || _ <- lists:seq(1, Alive)],
    Took = now_nanoseconds() - Start,
    tell("start, all at once", Alive, Took, Alive, count(Supervisor)),
    timer:sleep(100),
    Bytes = max(resident() - Before, 0),
    io:format("memory of an idle child, ~b alive: ~b bytes, ~b times, answer -~n", [Alive, Bytes, Alive]),
    Children.

time_idle(Alive) when Alive < ?MOST -> ok;
time_idle(Alive) ->
    Before = processor_time(),
    timer:sleep(?IDLE * 1000),
    tell("processor time of an idle second", Alive, processor_time() - Before, ?IDLE, Alive).

time_counts(Supervisor, Alive) ->
    Start = now_nanoseconds(),
    [count(Supervisor) || _ <- lists:seq(1, ?COUNTS)],
    tell_loose("count, all idle", Alive, now_nanoseconds() - Start, ?COUNTS).

ask_all(_Children, _Place, 0, Sum) -> Sum;
ask_all(Children, Place, Left, Sum) ->
    Answer = gen_server:call(element(Place + 1, Children), ask),
    ask_all(Children, (Place + 617) rem tuple_size(Children), Left - 1, Sum + Answer).

time_answers(Children, Alive) ->
    Start = now_nanoseconds(),
    Sum = ask_all(Children, 0, ?ASKED, 0),
    tell("message and answer", Alive, now_nanoseconds() - Start, ?ASKED, Sum).

each(Alive) -> max(?SENT div Alive, 4).

time_sends(Children, Alive) ->
    Each = each(Alive),
    Message = {count, Each, Alive},
    Start = now_nanoseconds(),
    [[gen_server:cast(Child, Message) || Child <- Children] || _ <- lists:seq(1, Each)],
    receive heard -> ok end,
    tell("message, until all are heard", Alive, now_nanoseconds() - Start, Each * Alive, Each * Alive).

count_some(Supervisor) ->
    Start = now_nanoseconds(),
    [count(Supervisor) || _ <- lists:seq(1, ?SOME)],
    now_nanoseconds() - Start.

send_one(Supervisor, Child, Message, {Sent, Took}) ->
    gen_server:cast(Child, Message),
    case (Sent + 1) rem 1000 of
        0 -> {Sent + 1, Took + count_some(Supervisor)};
        _ -> {Sent + 1, Took}
    end.

%% Sends as much again, and counts the children a hundred times between a thousand messages. Only the counts are timed.
time_counts_beside(Supervisor, Children, Alive) ->
    Message = {count, each(Alive) * 2, Alive},
    Turn = fun(Child, Sum) -> send_one(Supervisor, Child, Message, Sum) end,
    {Sent, Took} = lists:foldl(fun(_, Sum) -> lists:foldl(Turn, Sum, Children) end, {0, 0}, lists:seq(1, each(Alive))),
    receive heard -> ok end,
    tell_loose("count beside messages", Alive, Took, Sent div 1000 * ?SOME).

%% Those that run in place of the first.
time_restarts(Supervisor, Children, Alive) ->
    {First, Others} = lists:split(?SINGLES, Children),
    Start = now_nanoseconds(),
    New = [begin gen_server:cast(Child, crash), receive {began, Next} -> Next end end || Child <- First],
    Took = now_nanoseconds() - Start,
    tell("crash and restart, one at a time", Alive, Took, ?SINGLES, count(Supervisor)),
    Others ++ New.

time_single_exits(Supervisor, Children, Alive) ->
    {First, Others} = lists:split(?SINGLES, Children),
    Start = now_nanoseconds(),
    lists:foldl(fun(Child, Left) ->
                    gen_server:cast(Child, 'end'),
                    await_count(Supervisor, Left - 1),
                    Left - 1
                end, Alive, First),
    Took = now_nanoseconds() - Start,
    tell("exit, one at a time", Alive, Took, ?SINGLES, count(Supervisor)),
    Others.

start_timed(Supervisor, Sum) ->
    Start = now_nanoseconds(),
    {ok, Child} = supervisor:start_child(Supervisor, []),
    Took = now_nanoseconds() - Start,
    receive {began, Child} -> {Child, Sum + Took} end.

%% Until each start returns, and until the child has had its first turn, which is its init.
time_single_starts(Supervisor, Children, Alive) ->
    Start = now_nanoseconds(),
    {New, Making} = lists:mapfoldl(fun(_, Sum) -> start_timed(Supervisor, Sum) end, 0, lists:seq(1, ?SINGLES)),
    Took = now_nanoseconds() - Start,
    Active = count(Supervisor),
    tell("start, one at a time", Alive, Making, ?SINGLES, Active),
    tell("start and first turn, one at a time", Alive, Took, ?SINGLES, Active),
    Children ++ New.

time_exits(Supervisor, Children, Alive) ->
    Start = now_nanoseconds(),
    [gen_server:cast(Child, 'end') || Child <- Children],
    await_count(Supervisor, 0),
    tell("exit, all at once", Alive, now_nanoseconds() - Start, Alive, 0).

main([Word]) ->
    %% (a crash would be written at length)
    logger:set_primary_config(level, none),
    Alive = list_to_integer(atom_to_list(Word)),
    {ok, Supervisor} = supervisor:start_link(?MODULE, {supervisor, self(), atomics:new(1, [])}),
    Children = time_starts(Supervisor, Alive),
    time_idle(Alive),
    time_counts(Supervisor, Alive),
    time_answers(list_to_tuple(Children), Alive),
    time_sends(Children, Alive),
    time_counts_beside(Supervisor, Children, Alive),
    Restarted = time_restarts(Supervisor, Children, Alive),
    Left = time_single_exits(Supervisor, Restarted, Alive),
    Again = time_single_starts(Supervisor, Left, Alive),
    time_exits(Supervisor, Again, Alive),
    halt().
