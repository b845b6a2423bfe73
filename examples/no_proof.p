cnf(one,axiom,p | ~q).
cnf(two,negated_conjecture,~p).
