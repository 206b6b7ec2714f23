% Who has a right to the heating allowance? The sections of an invented act, as clauses.
% Each query is answered within 50 calls (`--budget 50`).

% Section 1. A resident with an income below 1,200 a month has a right to the allowance, unless section 2 excludes them.
entitled(P) :- resident(P), income(P, M), M #< 1200, not excluded(P).

% Section 2. Who lives in a home that the state pays for is excluded. So is who gets the housing grant, unless section 3
% finds a hardship.
excluded(P) :- in_care(P).
excluded(P) :- grant(P), not hardship(P).

% Section 3. It is a hardship to support a child, or to pay more than half of one's income as rent.
hardship(P) :- child(P, _).
hardship(P) :- income(P, M), rent(P, R), 2*R #> M.

% Three cases.
resident(ada).  income(ada, 900).   grant(ada).  rent(ada, 400).
resident(ben).  income(ben, 1000).  grant(ben).  rent(ben, 600).
resident(eve).  income(eve, 1500).

?- entitled(P).         % Ben: his rent is a hardship, so that the grant does not exclude him
?- not entitled(eve).   % whatever else holds, her income is too high
