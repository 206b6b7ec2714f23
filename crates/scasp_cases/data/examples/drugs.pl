% Which drug may be given for the patient's complaint?
% `-safe(D)` says that a danger of D is known; `not -safe(D)`, that none is known. `safe(D)` is a third thing: D was
% taken before and did no harm. No drug can be both safe and dangerous: that is checked with each answer.
% Each query is answered within 100 calls (`--budget 100`).

give(D) :- complaint(C), treats(D, C), not -safe(D).

% A danger is known if D works against a drug that is being taken, or the patient is allergic to its group.
-safe(D) :- takes(E), interacts(D, E).
-safe(D) :- allergic(G), group(D, G).

safe(paracetamol).

complaint(fever).
treats(ibuprofen, fever).
treats(penicillin, fever).
treats(paracetamol, fever).
group(penicillin, betalactams).

% The patient.
takes(warfarin).
interacts(ibuprofen, warfarin).
allergic(betalactams).

?- give(D).             % the first two are dangerous
?- -safe(ibuprofen).    % and why
