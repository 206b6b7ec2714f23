% What other systems write otherwise: each comment has a form that is refused, and below it stands the form to write here.
% Each query is answered within 50 calls (`--budget 50`).

% { lit(L) } :- lamp(L).
lit(L) :- lamp(L), not dark(L).
dark(L) :- lamp(L), not lit(L).

% :- #count { L : lit(L) } > 1.
:- lit(L), lit(M), L \= M.

% warm(R) :- sunny(R) ; heated(R).
warm(R) :- sunny(R).
warm(R) :- heated(R).

% cost(R, C) :- size(R, S), C is 2*S + 1.
cost(R, C) :- size(R, S), C #= 2*S + 1.

% kind(R, K) :- size(R, S), (S < 20 -> K = small ; K = large).
kind(R, small) :- size(R, S), S #< 20.
kind(R, large) :- size(R, S), S #>= 20.

% ready :- forall(room(R), warm(R)).
ready :- not some_cold.
some_cold :- room(R), not warm(R).

% open(8..17).
open(T) :- T #>= 8, T #=< 17.

lamp(desk).
lamp(door).
room(hall).     size(hall, 30).     heated(hall).
room(study).    size(study, 12.5).  sunny(study).

?- lit(L).
?- cost(study, C).
?- kind(hall, K).
?- ready.
?- open(T).
