let a = 1; 
