% When is the light on? An event calculus: what an event initiates holds until an event terminates it.
% Each query is answered within 50 calls (`--budget 50`).

holds(F, T) :- happens(E, S), initiates(E, F), S #< T, not clipped(S, F, T).
clipped(S, F, T) :- happens(E, U), terminates(E, F), S #< U, U #< T.

initiates(turn_on, light).
terminates(turn_off, light).

happens(turn_on, 2).
happens(turn_off, 5).
happens(turn_on, 13/2).

?- holds(light, 3).        % it was turned on at 2
?- holds(light, T).        % after 2 and up to 5; with a second answer, after half past six
?- not holds(light, 6).    % it was turned off at 5
