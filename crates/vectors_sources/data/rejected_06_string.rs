let a = "b;
