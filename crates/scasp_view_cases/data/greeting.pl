greets('Jürgen', 'Grüß Gott').
heard(X) :- greets(X, 'naïve), said(X).
?- heard(X).
