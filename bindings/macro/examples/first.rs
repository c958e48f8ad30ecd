//! The macro, called directly and through two macros of `macro_rules`.
use example_pairs_macro::example_pairs;

macro_rules! through {
    ($i:ident, $l:literal, $e:expr) => {
        example_pairs!($i => $l, b => $e)
    };
}
macro_rules! twice {
    ($i:ident, $l:literal, $e:expr) => {
        through!($i, $l, $e)
    };
}

fn main() {
    let direct = example_pairs!(a => "x", b => "y",);
    assert_eq!(direct, through!(a, "x", "y"));
    assert_eq!(direct, twice!(a, "x", "y"));
    println!("{direct:?}");
}
