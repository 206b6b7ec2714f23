% Which part of the circuit is broken? A door bell with a lamp: the battery feeds a buzzer, and through a fuse a lamp.
% Each query ends or is answered within 50 calls (`--budget 50`).

% Each part works or is broken; a diagnosis takes one of the two.
works(P) :- part(P), not broken(P).
broken(P) :- part(P), not works(P).

part(battery).
part(fuse).
part(lamp).
part(buzzer).

% How the circuit behaves.
sounds :- works(battery), works(buzzer).
shines :- works(battery), works(fuse), works(lamp).

% What was seen: the buzzer sounds, and the lamp is dark. An answer that says otherwise is no diagnosis.
:- not sounds.
:- shines.

?- broken(P).             % some part is broken
?- broken(battery).       % it is not the battery: the buzzer sounds
