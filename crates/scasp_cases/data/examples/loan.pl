% What is left of a loan? One in a hundred is added each month, and then a rate is paid. All numbers are exact.
% Each query is answered within 10 calls (`--budget 10`).

% The rest behind N months.
rest(0, 1000, _).
rest(N, R, Rate) :- N #> 0, M #= N - 1, rest(M, B, Rate), R #= 101/100*B - Rate.

% A loan is paid off behind N months if nothing is left.
paid(N, Rate) :- rest(N, 0, Rate).

?- rest(3, R, 300).        % what is left behind three months at 300 a month
?- paid(3, Rate).          % the rate at which nothing is left
