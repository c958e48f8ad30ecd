/// ab
fn c() {}
