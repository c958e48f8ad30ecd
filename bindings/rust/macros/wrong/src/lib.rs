//! Wrong arguments. Each error is at the token that the comment names.
use setting::{setting, settings, settings_syn};

macro_rules! limit {
    ($e:expr) => {
        const _: () = {
            #[setting(name = "x", limit = $e)]
            struct L;
        };
    };
}
macro_rules! limit2 {
    ($e:expr) => {
        limit!($e);
    };
}
macro_rules! name {
    ($l:literal) => {
        #[setting(name = $l)]
        struct N;
    };
}
macro_rules! meta {
    ($m:meta) => {
        #[setting($m)]
        struct M;
    };
}

#[setting(name = "x" limit = 3)] // limit
struct A;

#[setting(name = "x", limit =)] // the end, so the call site: the attribute
struct B;

#[setting(name = "x", flags(a b))] // b
struct C;

#[setting(name = "x", flags(a, =))] // =
struct D;

#[setting(name = "x", flags(a = ))] // the closing parenthesis
struct E;

#[setting(name = 3)] // 3
struct F;

#[setting(title = "x", name = 'c', author)] // title, 'c' and author: three errors
struct G;

limit2!(3 + 4); // +
limit2!((3)); // (3)
name!(7); // 7
meta!(title = 1); // title
const X: &str = settings!(name = "x", fn); // fn
const Y: &str = settings_syn!(name = "x" limit = 3); // limit, by syn
