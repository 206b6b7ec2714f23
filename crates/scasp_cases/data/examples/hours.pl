% When is the office open? Hours of the day, as exact fractions. Each query has several answers.
% Each query ends within 10 calls (`--budget 10 --answers 0`).

open(T) :- T #>= 9, T #=< 12.
open(T) :- T #>= 13.5, T #=< 17.

?- T #>= 0, T #< 24, not open(T).                % before 9, in the lunch break, after 17
?- open(S), S #=< 12, T #> 12.5, not open(T).    % it is open at S, up to noon, and not at T, after half past twelve
