% Which drug comes first for a patient with high blood pressure? A guideline with exceptions, much simplified.
% `-safe(D, P)` says that a danger is known; `not -safe(D, P)`, that none is known.
% Each query is answered within 50 calls (`--budget 50`).

% Under 55 an ACE inhibitor comes first; from 55 on, a calcium channel blocker, but not with diabetes.
first(P, ace_inhibitor) :- age(P, A), A #< 55, not -safe(ace_inhibitor, P).
first(P, calcium_blocker) :- age(P, A), A #>= 55, not diabetes(P), not -safe(calcium_blocker, P).

% Who is under 55 and may not have an ACE inhibitor gets an angiotensin receptor blocker, if that is safe; and who has
% diabetes gets the ACE inhibitor at any age.
first(P, receptor_blocker) :- age(P, A), A #< 55, -safe(ace_inhibitor, P), not -safe(receptor_blocker, P).
first(P, ace_inhibitor) :- diabetes(P), not -safe(ace_inhibitor, P).

% Dangers.
-safe(ace_inhibitor, P) :- pregnant(P).
-safe(receptor_blocker, P) :- pregnant(P).
-safe(ace_inhibitor, P) :- cough_under(P, ace_inhibitor).
-safe(calcium_blocker, P) :- heart_failure(P).

% Treatment begins above 140, and above 130 with diabetes. The pressure is in millimetres of mercury.
treat(P, D) :- pressure(P, S), S #> 140, first(P, D).
treat(P, D) :- pressure(P, S), S #> 130, diabetes(P), first(P, D).

age(ann, 41).   pressure(ann, 150).   cough_under(ann, ace_inhibitor).
age(bob, 67).   pressure(bob, 135).   diabetes(bob).
age(eva, 33).   pressure(eva, 160).   pregnant(eva).

?- treat(ann, D).        % the receptor blocker: she coughs under an ACE inhibitor
?- treat(bob, D).        % the ACE inhibitor, for his diabetes
?- not treat(eva, D).    % none of these: each is dangerous for her
