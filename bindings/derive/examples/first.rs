//! The derive, called directly and through a macro of `macro_rules`.
#![allow(dead_code)]
use example_fields_derive::Fields;

macro_rules! through {
    ($v:vis struct $i:ident { $($(#[$a:meta])* $w:vis $f:ident: $t:ty,)* }) => {
        #[derive(Fields)]
        $v struct $i { $($(#[$a])* $w $f: $t,)* }
    };
}

#[derive(Fields)]
struct Point {
    #[field(name = "across")]
    pub x: u8,
    y: Option<u8>,
}

through! {
    struct Passed {
        #[field(name = "across")]
        pub x: u8,
        y: Option<u8>,
    }
}

fn main() {
    assert_eq!(Point::fields(), Passed::fields());
    println!("{:?}", Point::fields());
}
