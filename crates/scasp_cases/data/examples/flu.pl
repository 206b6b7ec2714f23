% Is rest needed? Two facts, four rules and a query.
% Each query is answered within 10 calls (`--budget 10`).

fever.
cough.
cold :- cough, sneezing.
flu :- fever, cough.
rest :- cold.
rest :- flu.
?- rest.
