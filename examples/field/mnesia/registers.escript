#!/usr/bin/env escript
%% Mnesia by lines: a register is a record, and each thread of the bench a process of Erlang. When Mnesia runs the function again, that aborts,
%% and A answers the pending call: the next attempt is another activity, which begins with its first call.
%%
%%     registers.escript transaction|sync_transaction|async_dirty|ets|dirty_read
%%
%% By dirty_read a transaction reads so.
-mode(compile).

main([Kind]) ->
    ok = mnesia:start(),
    {atomic, ok} = mnesia:create_table(registers, [{ram_copies, [node()]}, {attributes, [k, v]}]),
    [ok = mnesia:dirty_write({registers, K, 0}) || K <- lists:seq(0, 7)],
    hand_out(list_to_tuple([spawn_link(fun() -> serve(Thread, list_to_atom(Kind)) end) || Thread <- lists:seq(0, 7)])).

hand_out(Processes) ->
    case io:get_line("") of
        eof -> halt(0);
        [Digit, $\s | Call] ->
            element(Digit - $0 + 1, Processes) ! string:lexemes(Call, " \n"),
            hand_out(Processes)
    end.

answer(Thread, Words) -> io:put_chars([Thread + $0, $\s, Words, $\n]).

next_call() -> receive Call -> Call end.

%% Makes a transaction, and answers its last call.
serve(Thread, Kind) ->
    First = next_call(),
    put(runs, 0),
    Block = fun() ->
        case put(runs, get(runs) + 1) of
            0 -> make_calls(Thread, Kind, First);
            _ -> mnesia:abort(asked)
        end
    end,
    Activity = case Kind of dirty_read -> transaction; _ -> Kind end,
    answer(Thread, try mnesia:activity(Activity, Block) catch exit:{aborted, asked} -> "A" end),
    serve(Thread, Kind).

make_calls(_, _, ["T"]) -> "C";
make_calls(_, _, ["X"]) -> mnesia:abort(asked);
make_calls(Thread, Kind, ["R", Register]) ->
    Key = list_to_integer(Register),
    [{registers, _, Value}] = case Kind of dirty_read -> mnesia:dirty_read(registers, Key); _ -> mnesia:read(registers, Key) end,
    answer(Thread, ["V ", integer_to_list(Value)]),
    make_calls(Thread, Kind, next_call());
make_calls(Thread, Kind, ["W", Register, Value]) ->
    ok = mnesia:write({registers, list_to_integer(Register), list_to_integer(Value)}),
    answer(Thread, "K"),
    make_calls(Thread, Kind, next_call()).
