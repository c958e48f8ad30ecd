#[inline]
fn f() { let a = 'b; g(] }
