% A subtree that stands twice.
t :- q(X), not u.
q(a).
q(b).
u :- w.
w :- v.
v.
?- not t.
