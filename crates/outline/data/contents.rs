#[]
#[1]
#[inline always]
#[doc =]
#[allow(a) b]
#[a::]
#[cold]
fn f() {}
