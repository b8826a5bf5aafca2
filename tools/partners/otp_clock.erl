%% The supervisor of the installed OTP, under a clock of its own.
%%
%% load() takes the abstract code of the installed supervisor.beam, changes two calls in it, compiles it and loads it, all in
%% the memory of this virtual machine. Nothing of OTP's is written anywhere. The two calls are
%%   erlang:monotonic_time(1) in add_restart/1, which becomes otp_clock:moment(1), and
%%   gen_server:cast(self(), ..) in try_again_restart/1, which becomes otp_clock:hold(self(), ..).
%% A supervisor that has a stage sees its moment, and its message to itself is held there. Any other one, such as the
%% kernel's own, does what it always did.
-module(otp_clock).
-export([load/0, enter_stage/1, field/1, moment/1, hold/2]).

%% Loads the changed supervisor. The answer is ok, or an error with a text for people.
load() ->
    {supervisor, Beam, File} = code:get_object_code(supervisor),
    case beam_lib:chunks(Beam, [abstract_code]) of
        {ok, {_, [{abstract_code, {_, Forms}}]}} -> change_and_load(Forms, File);
        _ -> {error, File ++ " was built without its abstract code, so that its clock cannot be changed"}
    end.

change_and_load(Forms, File) ->
    {Timed, Clocks} = redirect(Forms, {erlang, monotonic_time}, moment),
    {Changed, Casts} = in_function(try_again_restart, Timed, {gen_server, cast}, hold),
    case {Clocks, Casts} of
        {1, 1} ->
            {ok, supervisor, Binary} = compile:forms(Changed, [binary]),
            true = code:unstick_mod(supervisor),
            {module, supervisor} = code:load_binary(supervisor, File, Binary),
            persistent_term:put(?MODULE, fields(Forms)),
            ok;
        _ ->
            {error, io_lib:format("~s reads the clock ~b times and casts to itself ~b times, and not once each",
                                  [File, Clocks, Casts])}
    end.

%% The term with each call of Module:Function as one of ours, and how many there were.
redirect({call, At, {remote, _, {atom, _, M}, {atom, _, F}}, Given}, {M, F}, To) ->
    {{call, At, {remote, At, {atom, At, ?MODULE}, {atom, At, To}}, Given}, 1};
redirect(Term, From, To) when is_tuple(Term) ->
    {Parts, Count} = redirect(tuple_to_list(Term), From, To),
    {list_to_tuple(Parts), Count};
redirect([First | Rest], From, To) ->
    {First1, Count1} = redirect(First, From, To),
    {Rest1, Count2} = redirect(Rest, From, To),
    {[First1 | Rest1], Count1 + Count2};
redirect(Term, _, _) ->
    {Term, 0}.

%% The same in the function of this name alone.
in_function(Name, Forms, From, To) ->
    One = fun({function, _, It, _, _} = Form, Count) when It =:= Name ->
                  {Form1, More} = redirect(Form, From, To),
                  {Form1, Count + More};
             (Form, Count) ->
                  {Form, Count}
          end,
    lists:mapfoldl(One, 0, Forms).

%% The names of the fields of the supervisor's state, in order.
fields(Forms) ->
    [Fields] = [It || {attribute, _, record, {state, It}} <- Forms],
    [name(It) || It <- Fields].

name({typed_record_field, Field, _Type}) -> name(Field);
name({record_field, _, {atom, _, Name}}) -> Name;
name({record_field, _, {atom, _, Name}, _Default}) -> Name.

%% The place of a field in the supervisor's state.
field(Name) ->
    Before = lists:takewhile(fun(It) -> It =/= Name end, persistent_term:get(?MODULE)),
    length(Before) + 2.

%% Makes the calling process, a supervisor that begins, play on this stage: a table that has its moment.
enter_stage(Stage) ->
    put(?MODULE, Stage).

%% The moment of the stage, in seconds. That it was asked for is noted there.
moment(Unit) ->
    case get(?MODULE) of
        undefined ->
            erlang:monotonic_time(Unit);
        Stage ->
            1 = Unit,
            ets:insert(Stage, {clock_was_read}),
            ets:lookup_element(Stage, moment, 2)
    end.

%% Holds a message of the supervisor to itself on the stage.
hold(Self, Message) ->
    case get(?MODULE) of
        undefined -> gen_server:cast(Self, Message);
        Stage -> ets:insert(Stage, {held, Message}), ok
    end.
