% May this be borrowed? The rules of a library.
% Each query is answered within 150 calls (`--budget 150`).

may_borrow(P, I) :- member(P), item(I, Kind), not blocked(P), not kept_back(P, I, Kind).

% Reference works stay in the house, but a teacher may take one over the weekend.
kept_back(P, I, reference) :- not teacher(P).
kept_back(P, I, Kind) :- reserved(I, Q), Q \= P.
kept_back(P, I, Kind) :- on_loan(I, Q).

% Who owes ten or more, or has an item that is overdue by more than two weeks, is blocked. A waiver lifts both.
blocked(P) :- owes(P, M), M #>= 10, not waived(P).
blocked(P) :- on_loan(I, P), due(I, D), today(T), T #> D + 14, not waived(P).

today(100).
item(atlas, reference).   item(novel, book).   item(score, book).   item(film, disc).
member(ana).              teacher(ana).
member(bo).               owes(bo, 12.5).      waived(bo).
member(cy).               on_loan(film, cy).   due(film, 80).
reserved(score, ana).

?- may_borrow(ana, I).           % the atlas: she is a teacher
?- may_borrow(bo, I).            % the novel: his debt is waived
?- not may_borrow(bo, score).    % it is reserved for somebody else
?- not may_borrow(cy, I).        % nothing: the film is overdue since day 80
