const TEXTS: [&str; 9] = ["", "a b", "\n\r\t\\\0\'\"", "\x41\x7f", "\u{41}\u{1_F600}\u{10ffff}",
    "two
lines", "one \
    line", "é漢😀", "//"];
fn suffix() { "a"b "a""b" "a"'c' }
