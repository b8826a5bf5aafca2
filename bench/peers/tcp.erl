%% The same server by OTP: gen_tcp, and a process for each connection under a supervisor.
%%
%% usage: erl -noshell -s tcp main PORT
-module(tcp).
-export([main/1, init/1, start_session/3, begin_session/3]).

%% how long a line may be
-define(LONGEST, 4096).

init({Listener, Made}) ->
    {ok, {#{strategy => simple_one_for_one, intensity => 1000, period => 60},
          [#{id => session, start => {?MODULE, start_session, [Listener, Made]}, restart => transient}]}}.

start_session(Listener, Made, Socket) ->
    {ok, proc_lib:spawn_link(?MODULE, begin_session, [Listener, atomics:add_get(Made, 1, 1), Socket])}.

begin_session(Listener, Number, Socket) ->
    gen_tcp:send(Socket, ["child ", integer_to_binary(Number), $\n]),
    hear(Listener, Socket, 1).

%% Answers each line, until the connection ends or a line says that the session is to crash.
hear(Listener, Socket, Count) ->
    case gen_tcp:recv(Socket, 0) of
        {ok, <<"crash\n">>} ->
            exit(crash);
        {ok, Line} ->
            gen_tcp:send(Socket, [integer_to_binary(Count), $\s, Line]),
            Line =:= <<"quit\n">> andalso gen_tcp:close(Listener),
            hear(Listener, Socket, Count + 1);
        {error, _} ->
            gen_tcp:close(Socket)
    end.

%% The process that accepts a connection owns it, so the connection stays when its session crashes.
accept(Listener, Supervisor, Accepted) ->
    case gen_tcp:accept(Listener) of
        {ok, Socket} ->
            {ok, _} = supervisor:start_child(Supervisor, [Socket]),
            accept(Listener, Supervisor, Accepted + 1);
        {error, closed} ->
            Accepted
    end.

main([Port | _]) ->
    %% (a crash would be written at length)
    logger:set_primary_config(level, none),
    {ok, Listener} = gen_tcp:listen(list_to_integer(atom_to_list(Port)),
                                    [binary, {packet, line}, {buffer, ?LONGEST}, {active, false}, {ip, loopback}, {reuseaddr, true}]),
    Made = atomics:new(1, []),
    {ok, Supervisor} = supervisor:start_link(?MODULE, {Listener, Made}),
    Accepted = accept(Listener, Supervisor, 0),
    io:format("~b connections, ~b children~n", [Accepted, atomics:get(Made, 1)]),
    halt().
