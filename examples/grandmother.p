%------------------------------------------------------------------------
% File     : family.p
/* twelve clauses */
cnf(1,axiom,( parent(ann,bob) ),file('family.ax',1)).
cnf('parent 2',axiom,( parent(bob,carl) )).
cnf(parent_3,axiom,( parent(carl,'dora') )).
cnf(female_1,axiom,female(ann)).
cnf(female_2,axiom,female(dora)).
cnf(male_1,axiom,male(bob)).
cnf(male_2,axiom,male(carl)).
cnf(grandparent,axiom,
    ( ~ parent(X,Y)
    | ~ parent(Y,Z)
    | grandparent(X,Z) )).
cnf(grandmother,axiom,
    ( ~ grandparent(X,Y) | ~ female(X) | grandmother(X,Y) ),
    inference(copy,[status(thm)],[c_0_1])).
cnf(grandfather,axiom,
    ( ~ grandparent(X,Y) | ~ male(X) | grandfather(X,Y) )).
cnf(apart,axiom,( ~ male(X) | ~ female(X) )).
cnf(goal,negated_conjecture,( ~ grandmother(ann,carl) )).
