% Who shaves whom? The barber shaves each man who does not shave himself. The rule rests on its own negation: whether the
% barber shaves a man may hang on whether that man shaves himself. Such a rule is checked with each answer.
% Each query is answered within 50 calls (`--budget 50`).

shaves(paul, paul).
shaves(barber, M) :- man(M), not shaves(M, M).

man(paul).
man(luca).

% With man(barber) there would be no answer at all: the barber would shave himself just if he does not.

?- shaves(barber, M).             % luca
?- not shaves(barber, paul).
