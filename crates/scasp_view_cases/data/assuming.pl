% What is assumed is chosen by two rules behind all clauses.
#abducible p.
q :- p.
?- q.
