% When do the loaves go into the oven? Two loaves, one oven; times are hours of the morning, as exact fractions.
% Each query is answered within 10 calls (`--budget 10`).

bakes(rye, 5/4).
bakes(wheat, 3/4).

% The oven is hot from half past five to eight.
in_oven(Loaf, From, To) :- bakes(Loaf, L), To #= From + L, From #>= 11/2, To #=< 8.

% One loaf is out before the other goes in.
apart(A, B, C, D) :- B #=< C.
apart(A, B, C, D) :- D #=< A.

% The wheat is still warm when the shop opens at seven: it comes out in the quarter of an hour before.
plan(R, W) :- in_oven(rye, R, RE), in_oven(wheat, W, WE), apart(R, RE, W, WE), WE #>= 27/4, WE #=< 7.

?- plan(Rye, Wheat).
