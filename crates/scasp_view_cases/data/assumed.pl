% Predicates that may be assumed, one of them beside its negation.
#abducible broken(Gate).
-broken(G) :- tested(G).
#abducible tired.
tested(xor1).
#abducible broken(_).
?- broken(G), not tired.
