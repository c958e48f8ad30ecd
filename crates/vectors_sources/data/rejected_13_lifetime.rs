let a: &'b#c;
