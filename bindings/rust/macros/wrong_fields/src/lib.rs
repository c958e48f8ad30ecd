//! Wrong inputs of a derive. Each error is at the token that the comment names.
#![allow(dead_code)]
use example_fields_derive::Fields;

macro_rules! named {
    ($l:literal, $t:ty) => {
        #[derive(Fields)]
        struct N(#[field(name = $l)] $t);
    };
}
macro_rules! attribute {
    ($m:meta) => {
        #[derive(Fields)]
        enum M {
            A {
                #[$m]
                a: u8,
            },
        }
    };
}

#[derive(Fields)]
struct A {
    #[field(title = "x")] // title
    a: u8,
}

#[derive(Fields)]
struct B(#[field(skip, name = 'x')] u8); // 'x'

#[derive(Fields)]
struct C {
    #[field(name = "x" skip)] // skip
    a: u8,
}

#[derive(Fields)]
union D {
    #[field(name = )] // the end, so the call site: the derive
    a: u8,
}

named!(7, Vec<u8>); // 7
attribute!(field(hidden)); // hidden
