% equality is not in the profile
cnf(a,axiom,
    ( p | X = Y )).
