%% The same work by OTP's supervisor: as many temporary children that end at once, started by one process, as the crew's driver
%% starts them, beside processes that call supervisor:count_children/1 all the time. Each child is a process, which any of the
%% scheduler's threads runs: the workers of a figure only name what it is compared with.
-module(crew).
-behaviour(supervisor).
-export([main/0, init/1, child/1]).

-define(CHILDREN, 65536).

init([]) ->
    {ok, {#{strategy => simple_one_for_one, intensity => 0, period => 5},
          [#{id => child, start => {?MODULE, child, []}, restart => temporary}]}}.

child(_Argument) ->
    {ok, spawn_link(fun() -> ok end)}.

start(_Supervisor, 0) -> ok;
start(Supervisor, Count) ->
    {ok, _} = supervisor:start_child(Supervisor, [Count]),
    start(Supervisor, Count - 1).

%% until the exit of every child was seen
settle(Supervisor) ->
    case proplists:get_value(active, supervisor:count_children(Supervisor)) of
        0 -> ok;
        _ -> settle(Supervisor)
    end.

read(Supervisor, Parent, Count, Started) ->
    receive
        over ->
            Took = erlang:monotonic_time(nanosecond) - Started,
            Parent ! {reads, Count, Took}
    after 0 ->
        supervisor:count_children(Supervisor),
        read(Supervisor, Parent, Count + 1, Started)
    end.

run(Workers, Readers) ->
    {ok, Supervisor} = supervisor:start_link(?MODULE, []),
    Parent = self(),
    Asking = [spawn_link(fun() -> read(Supervisor, Parent, 0, erlang:monotonic_time(nanosecond)) end)
              || _ <- lists:seq(1, Readers)],
    Start = erlang:monotonic_time(nanosecond),
    start(Supervisor, ?CHILDREN),
    settle(Supervisor),
    Took = erlang:monotonic_time(nanosecond) - Start,
    [Reader ! over || Reader <- Asking],
    Answers = [receive {reads, Count, Nanoseconds} -> {Count, Nanoseconds} end || _ <- Asking],
    unlink(Supervisor),
    exit(Supervisor, kill),
    io:format("child, ~b workers, ~b readers: ~b ns, ~b times, answer ~b~n",
              [Workers, Readers, Took, ?CHILDREN, ?CHILDREN]),
    Readers =:= 0 orelse
        io:format("read, ~b workers, ~b readers: ~b ns, ~b times, answer -~n",
                  [Workers, Readers, lists:sum([Nanoseconds || {_, Nanoseconds} <- Answers]),
                   lists:sum([Count || {Count, _} <- Answers])]).

main() ->
    [run(Workers, Readers) || {Workers, Readers} <- [{1, 0}, {4, 0}, {1, 2}, {4, 2}, {1, 4}, {4, 4}]],
    halt().
