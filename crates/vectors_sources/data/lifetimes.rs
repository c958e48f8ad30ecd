'a 'static '_ 'r#b 'é &'a T<'b, 'c> 'a: loop { break 'a; } 'a'b' 'if
