% The times of term_subsumer/3 on the pairs of sheets of tests/prolog.rs, which starts this and reads what it prints: a line for each
% goal of standard input, `tree(Levels)`, `trays(Levels)` or `shared(Levels)`, with the microseconds and the number of open places, or `more` where
% it takes more inferences than the limit or does not fit in the stacks.
:- use_module(library(terms)).

% In inferences; some ten seconds.
limit(100_000_000).

% A tree whose leaves are the constants 0 to K - 1, by the leaf's number, or such constants in trays.
tree(0, Kind, K, N, N1, Leaf) :- !, Constant is (N * N // 3) mod K, leaf(Kind, K, N, Constant, Leaf), N1 is N + 1.
tree(Levels, Kind, K, N, N2, f(A, B)) :-
    Below is Levels - 1,
    tree(Below, Kind, K, N, N1, A),
    tree(Below, Kind, K, N1, N2, B).

% A tray has two arguments where the leaf's number is a multiple of K, else one.
leaf(bare, _, _, Constant, Constant).
leaf(tray, K, N, Constant, Tray) :- ( N mod K =:= 0 -> Tray = tray(Constant, Constant) ; Tray = tray(Constant) ).

% Each level is one symbol twice over the level below it.
shared(0, Leaf, Leaf) :- !.
shared(Levels, Leaf, f(A, A)) :- Below is Levels - 1, shared(Below, Leaf, A).

pair(tree(Levels), A, B) :- tree(Levels, bare, 3, 0, _, A), tree(Levels, bare, 4, 0, _, B).
pair(trays(Levels), A, B) :- tree(Levels, tray, 3, 0, _, A), tree(Levels, tray, 4, 0, _, B).
pair(shared(Levels), A, B) :- shared(Levels, 0, A), shared(Levels, 1, B).

% The best of ten rounds for what is quick, one round otherwise.
best(A, B, Times, Least) :-
    findall(T, (between(1, Times, _), once_timed(A, B, T)), All),
    min_list(All, Least).

once_timed(A, B, T) :-
    get_time(Start),
    term_subsumer(A, B, _),
    get_time(End),
    T is (End - Start) * 1.0e6.

measure(Goal) :-
    pair(Goal, A, B),
    limit(Limit),
    (   catch(call_with_inference_limit((once_timed(A, B, First), term_subsumer(A, B, G)), Limit, Result), _, fail),
        Result \== inference_limit_exceeded
    ->  (   First < 100000.0 -> best(A, B, 10, Least) ; Least = First ),
        term_variables(G, Open),
        length(Open, Count),
        format("~1f ~d~n", [Least, Count])
    ;   format("more~n")
    ).

main :-
    set_prolog_flag(stack_limit, 4_000_000_000),
    repeat,
    read(Goal),
    (   Goal == end_of_file -> ! ; measure(Goal), flush_output, fail ).
