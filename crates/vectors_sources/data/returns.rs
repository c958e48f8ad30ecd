/// one
//! two
/** three
four */
fn item() {}
"a
b" "a\
  b" r"c
d" b"e
f" c"g
h"
