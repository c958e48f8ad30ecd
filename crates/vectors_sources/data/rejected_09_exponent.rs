let a = 1e+;
