% Who is a citizen by birth? The sections of an invented nationality act, as clauses.
% Each query is answered within 50 calls (`--budget 50`).

% Section 1. A person who is born in the country after 1982 is a citizen if, at the birth, a parent is a citizen or is
% settled in the country.
citizen(P) :- born(P, port, Year), Year #> 1982, parent(P, Year), not renounced(P).

% parent(P, Year): in that year P has such a parent.
parent(P, Year) :- child(P, Q), citizen_from(Q, From), From #=< Year.
parent(P, Year) :- child(P, Q), settled(Q, From), From #=< Year.

% Section 2. A child that is found in the country as a newborn is taken to meet section 1, unless the contrary is shown.
citizen(P) :- found(P, port, Year), Year #> 1982, not contrary_shown(P, Year), not renounced(P).

% The contrary is shown where the parents became known, and neither is a citizen or settled.
contrary_shown(P, Year) :- parents_known(P), not parent(P, Year).

% Section 3. A citizen may renounce by a declaration; that of a person below 18 is void.
renounced(P) :- declared(P, Age), Age #>= 18.

% Five cases. Kim is settled since 1985, Lee since 1995.
settled(kim, 1985).
settled(lee, 1995).
born(ada, port, 1990).    child(ada, kim).
born(ben, port, 1990).    child(ben, lee).
born(dan, port, 1995).    child(dan, kim).    declared(dan, 15).
found(cleo, port, 2001).
found(finn, port, 2001).  parents_known(finn).

?- citizen(ada).         % by section 1: Kim was settled when she was born
?- not citizen(ben).     % Lee was settled five years too late
?- citizen(dan).         % he declared it at 15, so that is void
?- citizen(cleo).        % by section 2: nobody knows her parents
?- not citizen(finn).    % his parents are known, and none is a citizen or settled
