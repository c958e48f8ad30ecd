let a = ';
