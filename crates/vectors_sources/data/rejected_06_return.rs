let a = "bc";
