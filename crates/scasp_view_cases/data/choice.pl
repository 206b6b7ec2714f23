% One of two, and what is known of them.
-open(D) :- shut(D), not open(D).
open(D) :- door(D), not -open(D).
door(front). door(back).
shut(back).
risk :- open(D), not watched(D).
:- risk, not alarm.
alarm :- not quiet.
quiet :- not alarm.
?- open(front), -open(back), not quiet.
?- door(D), D \= back.
?- watched(X).
