% When is the wall primed, and when is it painted? Times are hours of the day, as exact fractions.
% Each query is answered within 10 calls (`--budget 10`).

% The room is free from 8 to 12, and from 13:30 to 17.
free(8, 12).
free(13.5, 17).

% How many hours a job takes.
takes(prime, 3/4).
takes(paint, 5/4).

% A job that begins at T lies within a time when the room is free.
fits(Job, T) :- takes(Job, L), free(From, To), T #>= From, T + L #=< To.

% A delivery comes between half past ten and eleven; the painting cannot begin then.
delivery(T) :- T #> 10.5, T #< 11.

% The primer dries for an hour and a half.
plan(P, Q) :- fits(prime, P), fits(paint, Q), Q #>= P + 3/4 + 3/2, not delivery(Q).

?- plan(Prime, Paint).
