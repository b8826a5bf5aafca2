%% The formats of docs/FORMATS.md: lines, tokens, headers, commands and entries. A line that the format does not have is bad.
-module(otp_formats).
-export([script_lines/1, history_lines/1, script_header/1, history_header/1, command/1, entry/1, script_answer/2]).

-define(MOST, 18446744073709551615).
-define(MOST_CODE, 4294967295).

%% The lines of a script; the last one may lack its line feed.
script_lines(Text) ->
    case lists:reverse(binary:split(Text, <<"\n">>, [global])) of
        [<<>> | Lines] -> lists:reverse(Lines);
        Lines -> lists:reverse(Lines)
    end.

%% The lines of a history; one without its line feed is open.
history_lines(Text) ->
    case lists:reverse(binary:split(Text, <<"\n">>, [global])) of
        [<<>> | Lines] -> lists:reverse(Lines);
        [_ | Lines] -> lists:reverse([open | Lines])
    end.

script_header(Line) ->
    of_line(Line, fun([<<"sup">> | Fields]) -> template(Fields) end).

history_header(Line) ->
    of_line(Line, fun([<<"history">>, <<"1">> | Fields]) when length(Fields) =:= 5 -> template(Fields);
                     ([<<"history">>, <<"2">> | Fields]) when length(Fields) =:= 7 -> template(Fields)
                  end).

template([Restart, Kind, Intensity, Period, Max]) ->
    template([Restart, Kind, Intensity, Period, Max, <<"plain">>, <<"never">>]);
template([Restart, Kind, Intensity, Period, Max, Mark, Auto]) ->
    #{restart => one_of([permanent, transient, temporary], Restart),
      kind => one_of([worker, supervisor], Kind),
      intensity => number(Intensity),
      period => number(Period),
      max => number(Max),
      significant => one_of([significant, plain], Mark) =:= significant,
      auto => one_of([never, any, all], Auto)}.

%% A command of a script: a query, or an operation with its moment.
command(Line) ->
    of_line(Line, fun([<<"which">>]) -> which;
                     ([<<"count">>]) -> count;
                     ([<<"terminate_id">>, Id]) -> {by_identifier, terminate_child, text(Id)};
                     ([<<"delete_child">>, Id]) -> {by_identifier, delete_child, text(Id)};
                     ([<<"restart_child">>, Id]) -> {by_identifier, restart_child, text(Id)};
                     ([Name, Moment | Words]) -> {number(Moment), operation([Name | Words]), by_argument}
                  end).

%% An entry of a history: an operation with its moment and the answer of the start function.
entry(Line) ->
    of_line(Line, fun([Handle, Serial, Moment | Rest]) ->
                          _ = number(Handle),
                          _ = number(Serial),
                          {Operation, Answer} = answer(lists:reverse(Rest)),
                          {number(Moment), operation(Operation), Answer}
                  end).

answer([<<"running">> | Operation]) -> {lists:reverse(Operation), running};
answer([<<"ignore">> | Operation]) -> {lists:reverse(Operation), ignore};
answer([Code, <<"failed">> | Operation]) -> {lists:reverse(Operation), {failed, code(Code)}}.

operation([<<"start">>, Argument]) -> {start, text(Argument)};
operation([<<"exit">>, Number, Reason]) -> {exit, number(Number), reason(Reason)};
operation([<<"retry">>, Number]) -> {retry, number(Number)};
operation([<<"terminate">>, Number]) -> {terminate, number(Number)};
operation([<<"stop">>]) -> stop.

%% What the start function of scripts answers for an argument.
script_answer(<<"ignore">>, _Moment) ->
    ignore;
script_answer(<<"fail">>, _Moment) ->
    {failed, 1};
script_answer(<<"gap:", Gap/binary>>, Moment) ->
    case of_line(binary:replace(Gap, <<":">>, <<" ">>, [global]), fun([A, B]) -> {number(A), number(B)} end) of
        {A, B} when A =< Moment, Moment < B -> {failed, 1};
        _ -> running
    end;
script_answer(_, _Moment) ->
    running.

%% What the function makes of the tokens of a line, or bad where it has no clause for them.
of_line(open, _Read) ->
    bad;
of_line(Line, Read) ->
    try
        Read(binary:split(Line, <<" ">>, [global]))
    catch
        error:function_clause -> bad;
        throw:bad -> bad
    end.

one_of(Words, Token) ->
    case [It || It <- Words, atom_to_binary(It) =:= Token] of
        [Word] -> Word;
        [] -> throw(bad)
    end.

number(<<"0">>) ->
    0;
number(<<First, _/binary>> = Token) when First >= $1, First =< $9, byte_size(Token) =< 20 ->
    [throw(bad) || <<Byte>> <= Token, Byte < $0 orelse Byte > $9],
    at_most(?MOST, binary_to_integer(Token));
number(_) ->
    throw(bad).

code(Token) ->
    at_most(?MOST_CODE, number(Token)).

at_most(Most, Number) when Number =< Most -> Number;
at_most(_, _) -> throw(bad).

text(Token) when byte_size(Token) >= 1, byte_size(Token) =< 40 ->
    [throw(bad) || <<Byte>> <= Token, Byte < 16#21 orelse Byte > 16#7E],
    Token;
text(_) ->
    throw(bad).

%% The reason as a term of OTP's: a text that is no other reason is a binary.
reason(<<"normal">>) -> normal;
reason(<<"shutdown">>) -> shutdown;
reason(<<"shutdown:", Text/binary>>) -> {shutdown, text(Text)};
reason(Text) -> text(Text).
