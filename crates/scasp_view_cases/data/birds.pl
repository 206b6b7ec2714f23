% Birds fly unless they are known to be abnormal; penguins are, and it is known that they do not fly.
% Each query ends or is answered within 50 calls (`--budget 50`).

bird(tweety).
bird(sam).
penguin(sam).

flies(X) :- bird(X), not ab(X).
ab(X) :- penguin(X).
-flies(X) :- penguin(X).

% A penguin is a bird, and no bird is a stone.
:- penguin(X), not bird(X).
:- bird(X), stone(X).

?- flies(X).        % tweety
?- not flies(X).    % whatever is neither tweety nor sam
?- -flies(X).       % sam
?- flies(sam).      % he does not
