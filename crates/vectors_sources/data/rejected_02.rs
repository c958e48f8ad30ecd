fn a() { (b, c) }
mod open { fn b() { [1, 2]
