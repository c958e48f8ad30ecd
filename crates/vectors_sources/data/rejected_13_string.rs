let a = k"b";
