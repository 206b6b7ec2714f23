% The same person by two rules, and two bounds.
likes(X) :- friend(X).
likes(X) :- kin(X).
friend(ann).
kin(ann).
kin(bob).
tall(X) :- X #> 1.
tall(X) :- X #> 2.
?- likes(W).
?- tall(H).
