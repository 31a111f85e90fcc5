% Works out by SWI-Prolog what comes of cases: swipl tools/outcomes.pl < CASES, or with `-- unchecked` behind the script.
%
% A case is a line: a group, a book and a query, the two in hexadecimal (`-` for an empty book). The line is printed again
% with the outcomes behind it: `answer,TRIES,SLIP` for each answer in order, and at last `none`, `deep` or `cells` with the
% tries since the answer before. With `unchecked` terms are unified without the occurs check; an answer then may have no slip,
% since one of its terms goes round in a circle: `cyclic,TRIES`. `too_long,TRIES` ends a case that is beyond the bounds below.
%
% A try is one attempt to unify the first goal with the head of one rule. An atom is a(Number), a pair p(First, Rest), a
% variable a variable of Prolog's.

:- use_module(library(lists)).
:- use_module(library(readutil)).
:- use_module(library(time)).
:- initialization(main, main).

% rule(Number, Variables, Head, Goals): each look-up has fresh variables, also for those that no term mentions
:- dynamic rule/4.

% ── bounds ──

most_steps(512).
most_cells(2048).
% those of a case: a call of next has a million tries, which no case should come near
most_tries(50000).
most_answers(40).
most_slip(20000).
% the atoms, pairs and variables of a goal when it is written out; steps can double them
most_parts(5000).

% ── bytes ──

bytes([]) --> [].
bytes([Byte | Bytes]) -->
    [High, Low],
    { code_type(High, xdigit(H)), code_type(Low, xdigit(L)), Byte is 16 * H + L },
    bytes(Bytes).

two_bytes(Number) --> [High, Low], { Number is 256 * High + Low }.

term(_, a(Number)) --> [0x01], two_bytes(Number).
term(Variables, Variable) --> [0x02, Index], { nth0(Index, Variables, Variable) }.
term(Variables, p(First, Rest)) --> [0x03], term(Variables, First), term(Variables, Rest).

terms(0, _, []) --> !.
terms(Count, Variables, [Term | Terms]) -->
    term(Variables, Term),
    { Left is Count - 1 },
    terms(Left, Variables, Terms).

% the operands of a rule or query; its terms have exactly the length that is stated
header(Variables, Goals) --> [Count, Goals], two_bytes(_), { length(Variables, Count) }.

book(_) --> [].
book(Number) --> [0x11, _], book(Number).
book(Number) -->
    [0x10], header(Variables, Count), term(Variables, Head), terms(Count, Variables, Goals),
    { assertz(rule(Number, Variables, Head, Goals)), Next is Number + 1 },
    book(Next).

query(Variables, Goals) --> [0x12], header(Variables, Count), terms(Count, Variables, Goals).

% ── the search ──

unifies(checked, Goal, Head) :- unify_with_occurs_check(Goal, Head).
unifies(unchecked, Term, Term).

% the tries since the answer before; backtracking does not take them back
another_try :-
    nb_getval(tries, Tries),
    most_tries(Most),
    ( Tries >= Most -> throw(end(too_long)) ; true ),
    More is Tries + 1,
    nb_setval(tries, More).

tries_since(Tries) :- nb_getval(tries, Tries), nb_setval(tries, 0).

keep_within(Number, Most, Word) :- ( Number > Most -> throw(end(Word)) ; true ).

% how many parts are left of so many after those of the term; none may be short
parts_left(Term, Before, After) :- var(Term), !, Before > 0, After is Before - 1.
parts_left(a(_), Before, After) :- Before > 0, After is Before - 1.
parts_left(p(First, Rest), Before, After) :-
    Before > 0,
    Inside is Before - 1,
    parts_left(First, Inside, Between),
    parts_left(Rest, Between, After).

keep_small(Goal) :-
    most_parts(Most),
    ( acyclic_term(Goal), \+ parts_left(Goal, Most, _) -> throw(end(too_long)) ; true ).

% the steps, newest first, that prove all the goals, leftmost first, by rules in the order of their numbers
branch([], _, _, _, Steps, Steps).
branch([Goal | Goals], Check, Depth, Cells, Before, Steps) :-
    keep_small(Goal),
    rule(Number, Variables, Head, Body),
    Deeper is Depth + 1, most_steps(MostSteps), keep_within(Deeper, MostSteps, deep),
    length(Variables, Count), InUse is Cells + Count, most_cells(MostCells), keep_within(InUse, MostCells, cells),
    another_try,
    unifies(Check, Goal, Head),
    append(Body, Goals, Remaining),
    branch(Remaining, Check, Deeper, InUse, [step(Number, Variables) | Before], Steps).

search(Check, Variables, Goals) :-
    nb_setval(tries, 0),
    nb_setval(answers, 0),
    length(Variables, Cells),
    Search = forall(branch(Goals, Check, 0, Cells, [], Steps), print_answer(Variables, Steps)),
    catch(( call_with_time_limit(20, Search), Word = none ), Thrown, word(Thrown, Word)),
    tries_since(Tries),
    format(" ~w,~d", [Word, Tries]).

word(end(Word), Word).
word(time_limit_exceeded, too_long).

% ── answers ──

print_answer(Variables, Newest) :-
    nb_getval(answers, Answers),
    More is Answers + 1,
    most_answers(Most),
    keep_within(More, Most, too_long),
    nb_setval(answers, More),
    reverse(Newest, Steps),
    Slip = slip(Variables, Steps),
    ( acyclic_term(Slip) -> true ; throw(end(cyclic)) ),
    tries_since(Tries),
    % the unknowns are numbered from 0, from left to right
    numbervars(Slip, 0, _),
    most_slip(MostSlip),
    call_with_inference_limit(phrase(slip_bytes(Slip), Bytes), 1000000, Result),
    ( Result == inference_limit_exceeded -> throw(end(too_long)) ; true ),
    length(Bytes, Length),
    keep_within(Length, MostSlip, too_long),
    format(" answer,~d,", [Tries]),
    forall(member(Byte, Bytes), print_byte(Byte)).

print_byte(Byte) :- High is Byte // 16, Low is Byte mod 16, format("~16R~16R", [High, Low]).

slip_bytes(slip(Variables, Steps)) --> [0x20], row(Variables), steps(Steps), [0x2F].

steps([]) --> [].
steps([step(Number, Variables) | Steps]) --> [0x21], number_bytes(Number), row(Variables), steps(Steps).

row(Terms) --> { length(Terms, Count) }, [Count], each(Terms).

each([]) --> [].
each([Term | Terms]) --> term_bytes(Term), each(Terms).

term_bytes(a(Number)) --> [0x01], number_bytes(Number).
term_bytes(p(First, Rest)) --> [0x03], term_bytes(First), term_bytes(Rest).
term_bytes('$VAR'(Number)) --> [0x04], number_bytes(Number).

number_bytes(Number) --> { High is Number // 256, Low is Number mod 256 }, [High, Low].

% ── cases ──

hexadecimal("-", []) :- !.
hexadecimal(Digits, Bytes) :- string_codes(Digits, Codes), phrase(bytes(Bytes), Codes), !.

outcomes(Check, BookDigits, QueryDigits) :-
    hexadecimal(BookDigits, Book),
    hexadecimal(QueryDigits, Query),
    retractall(rule(_, _, _, _)),
    phrase(query(Variables, Goals), Query), !,
    once(phrase(book(0), Book)),
    search(Check, Variables, Goals).

case(Check, Line) :-
    format("~s", [Line]),
    split_string(Line, " ", "", [_, Book, Query]),
    ( outcomes(Check, Book, Query) -> nl ; throw(no_case(Line)) ).

main(Arguments) :-
    ( Arguments = [unchecked] -> Check = unchecked ; Check = checked ),
    repeat,
    read_line_to_string(user_input, Line),
    ( Line == end_of_file -> ! ; case(Check, Line), fail ).
