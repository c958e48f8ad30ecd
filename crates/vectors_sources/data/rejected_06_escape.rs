let a = "\q";
