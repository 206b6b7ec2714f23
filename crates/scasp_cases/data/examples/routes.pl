% Which stops can be reached? A rule that calls itself, over roads that lead round in a circle.
% The road stands first, so that the call behind it begins one stop further on. `routes_endless.pl` has the two items the
% other way round, and does not end.
% Each query ends or is answered within 50 calls (`--budget 50`).

reach(X, Y) :- road(X, Y).
reach(X, Y) :- road(X, Z), reach(Z, Y).

road(harbour, market).
road(market, station).
road(station, harbour).
road(station, airport).

?- reach(harbour, airport).
?- reach(harbour, castle).        % no: each way was gone
?- not reach(harbour, castle).    % and this is why
