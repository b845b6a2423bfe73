cnf(c1,axiom,p | q).
cnf(c2,axiom,p | ~q).
cnf(c3,axiom,~p | q).
cnf(c4,axiom,~p | ~q).
