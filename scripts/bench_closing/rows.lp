% The fourteen rows as a logic program over t(Subject, Predicate, Object), the terms by number; names, positions and kept triples
% are facts beside it.
t(A,0,1) :- t(X,A,Y).
t(X,0,C) :- t(A,21,C), t(X,A,Y).
t(Y,0,C) :- t(A,22,C), t(X,A,Y).
t(X,0,15) :- t(X,A,Y).
t(Y,0,15) :- t(X,A,Y).
t(A,24,C) :- t(A,24,B), t(B,24,C).
t(A,24,A) :- t(A,0,1).
t(X,B,Y) :- t(A,24,B), t(X,A,Y).
t(C,23,15) :- t(C,0,16).
t(X,0,D) :- t(C,23,D), t(X,0,C).
t(C,23,C) :- t(C,0,16).
t(C,23,E) :- t(C,23,D), t(D,23,E).
t(A,24,25) :- t(A,0,20).
t(C,23,17) :- t(C,0,18).
t(10,0,2).
t((0;4;5;6;7;8;9),0,1).
t(X,0,1) :- position(X).
t(X,0,15) :- name(X).
t(X,0,20) :- position(X).
t(X,21,15) :- position(X).
t(X,22,15) :- position(X).
t((25;26;27;9;0;28;29),21,15).
t((4;5;6),21,3).
t((21;22;24),21,1).
t(23,21,16).
t((7;8),21,2).
t((25;26;27;9;4;5;6;7),22,15).
t((0;21;22;23),22,16).
t(24,22,1).
t(8,22,2).
t((28;29),22,17).
t((13;12;11),23,19).
t(20,23,1).
t(18,23,16).
t(27,24,26).
name(0..n-1).
position(14).
#show.
#show size(N) : N = #count { X,A,Y : t(X,A,Y) }.
