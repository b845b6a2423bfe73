cnf(fact,axiom,p).
cnf(rule,axiom,q | ~p).
cnf(goal,negated_conjecture,~q).
