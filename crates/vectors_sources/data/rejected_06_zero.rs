let a = c"a\0";
