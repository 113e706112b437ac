% SWI-Prolog's transactions on facts, by lines: a register is a fact amount(Register, Value), and each thread of the bench is one of Prolog.
%
%     swipl facts.pl -- unchecked|checked
%
% `unchecked` calls transaction/1. `checked` calls transaction/3, whose constraint is that what the transaction has read still stands.
:- dynamic amount/2.
:- initialization(main, main).

main([Kind]) :-
    forall(between(0, 7, Register), assertz(amount(Register, 0))),
    findall(Id, ( between(0, 7, Thread), thread_create(serve(Kind, Thread), Id) ), Ids),
    hand_out(Ids).

hand_out(Ids) :-
    read_line_to_string(user_input, Line),
    ( Line == end_of_file -> halt
    ; split_string(Line, " ", "", [Digit|Call]), number_string(Thread, Digit), nth0(Thread, Ids, Id), thread_send_message(Id, call(Call)) ),
    hand_out(Ids).

answer(Thread, Words) :-
    atomic_list_concat([Thread|Words], ' ', Line),
    with_output_to(string(Text), writeln(Line)),
    with_mutex(answer, ( write(user_output, Text), flush_output(user_output) )).

% Makes a transaction, and answers its last call.
serve(Kind, Thread) :-
    thread_get_message(call(First)),
    nb_setval(held, []),
    ( catch(run(Kind, make_calls(Thread, First)), Stopped, true) -> ( var(Stopped) -> Letter = 'C' ; end(Stopped, Letter) )
    ; Letter = 'A' ),
    answer(Thread, [Letter]),
    serve(Kind, Thread).

end(asked, 'A').
end(error(Formal, Context), _) :- print_message(error, error(Formal, Context)), halt(1).

run(unchecked, Goal) :- transaction(Goal).
run(checked, Goal) :- transaction(Goal, still_stands, commit).

% Each register that was read or written holds what was last read or written there, and nothing else.
still_stands :-
    nb_getval(held, Held),
    forall(member(Register-Value, Held), findall(Found, amount(Register, Found), [Value])).

make_calls(_, ["T"]) :- !.
make_calls(_, ["X"]) :- throw(asked).
make_calls(Thread, [Letter|Words]) :-
    maplist([Word, Number]>>number_string(Number, Word), Words, Numbers),
    make_call(Letter, Numbers, Answer), answer(Thread, Answer),
    thread_get_message(call(Next)), make_calls(Thread, Next).

make_call("R", [Register], ['V', Value]) :- once(amount(Register, Value)), hold(Register, Value).
make_call("W", [Register, Value], ['K']) :- retractall(amount(Register, _)), assertz(amount(Register, Value)), hold(Register, Value).

hold(Register, Value) :-
    nb_getval(held, Held),
    ( selectchk(Register-_, Held, Others) -> true ; Others = Held ),
    nb_setval(held, [Register-Value|Others]).
