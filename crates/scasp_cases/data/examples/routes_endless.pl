% An ordinary program that does not end. `routes.pl` has its smaller form.
% The rule calls itself before it asks for a road. So a call for what the harbour reaches makes another such call, with a new
% variable, and so on. No call is the same as one before, and none is nearer to a road.
% The second query spends its budget; `--budget 40` shows that at once.

reach(X, Y) :- road(X, Y).
reach(X, Y) :- reach(X, Z), road(Z, Y).

road(harbour, market).
road(market, station).

?- reach(harbour, station).
?- reach(harbour, castle).    % no road leads there, but the search does not find the end
