% Each holds where the other does not.
p :- not q.
q :- not p.
?- p.
