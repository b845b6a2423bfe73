cnf(rule,axiom,p | ~p).
cnf(rule,axiom,p | ~p).
cnf(rule,axiom,p | ~p).
cnf(rule,axiom,p | ~p).
cnf(goal,negated_conjecture,~p).
