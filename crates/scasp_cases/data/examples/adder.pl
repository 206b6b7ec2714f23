% Which gates of a full adder are broken? A broken gate gives the opposite of what it should.
% Each query ends or is answered within 150 calls (`--budget 150`).

% An answer may take of anything that it is broken, or that it is not.
#abducible broken(Gate).

% The bits that go in.
gives(a, on).
gives(b, off).
gives(carry, on).

% The gates, with what goes into each of them.
gate(xor1, xor, a, b).
gate(xor2, xor, xor1, carry).
gate(and1, and, a, b).
gate(and2, and, xor1, carry).
gate(or1, or, and1, and2).

% What a gate should give, and what it gives.
should(Gate, Out) :- gate(Gate, Kind, In, Other), gives(In, X), gives(Other, Y), table(Kind, X, Y, Out).
gives(Gate, Out) :- should(Gate, Out), not broken(Gate).
gives(Gate, Out) :- broken(Gate), should(Gate, Good), flip(Good, Out).

table(xor, on, on, off).    table(and, on, on, on).      table(or, on, on, on).
table(xor, on, off, on).    table(and, on, off, off).    table(or, on, off, on).
table(xor, off, on, on).    table(and, off, on, off).    table(or, off, on, on).
table(xor, off, off, off).  table(and, off, off, off).   table(or, off, off, off).

flip(on, off).
flip(off, on).

% What was seen: the sum is on and the carry that goes out is off. It should be the other way round.
observed :- gives(xor2, on), gives(or1, off).

?- observed.                                          % the first gate alone explains it
?- not broken(xor1), observed.                        % if that one works, two are broken
?- not broken(xor1), not broken(xor2), observed.      % one of these two is broken in any case
