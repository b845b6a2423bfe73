cnf(a,axiom,p(a)).
cnf(b,axiom,~p(X) | p(f(X))).
cnf(c,negated_conjecture,~p(f(f(a)))).
