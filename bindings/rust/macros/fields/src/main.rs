//! Tables of items, each derived directly and through `macro_rules`, whose fragments the compiler
//! wraps in invisible groups.
#![allow(dead_code)]
use example_fields_derive::Fields;

/// A type that macros name by `$crate`.
pub struct Local;

macro_rules! braces {
    ($(#[$a:meta])* $v:vis struct $i:ident { $($(#[$b:meta])* $w:vis $f:ident: $t:ty,)* }) => {
        $(#[$a])* #[derive(Fields)] $v struct $i { $($(#[$b])* $w $f: $t,)* }
    };
}
macro_rules! braces_twice {
    ($(#[$a:meta])* $v:vis struct $i:ident { $($(#[$b:meta])* $w:vis $f:ident: $t:ty,)* }) => {
        braces! { $(#[$a])* $v struct $i { $($(#[$b])* $w $f: $t,)* } }
    };
}
macro_rules! parentheses {
    ($v:vis struct $i:ident($($(#[$b:meta])* $w:vis $t:ty),*)) => {
        #[derive(Fields)] $v struct $i($($(#[$b])* $w $t),*);
    };
}
macro_rules! parameters {
    ($i:ident, $l:lifetime, $p:ident, $b:path, $d:ty, $n:ident, $m:ty, $e:expr, $q:ty, $t:ty) => {
        #[derive(Fields)]
        pub struct $i<$l, $p: $b + $l = $d, const $n: $m = $e>
        where
            $q: Copy,
        {
            pub a: &$l [$t; $n],
            b: fn($p) -> $q,
        }
    };
}
macro_rules! variants {
    ($i:ident { $($(#[$a:meta])* $k:ident $(($($t:ty),*))? $({ $($f:ident: $u:ty),* })?),* }) => {
        #[derive(Fields)]
        enum $i { $($(#[$a])* $k $(($($t),*))? $({ $($f: $u),* })?),* }
    };
}
macro_rules! discriminants {
    ($v:vis $i:ident, $k:ident, $e:expr) => {
        #[derive(Fields)]
        #[repr(u8)]
        $v enum $i { $k = $e, Last }
    };
}
macro_rules! union_of {
    ($v:vis $i:ident, $f:ident: $t:ty, $g:ident: $u:ty) => {
        #[derive(Fields)]
        $v union $i { $f: $t, pub $g: $u }
    };
}
macro_rules! whole {
    ($i:item) => {
        #[derive(Fields)]
        $i
    };
}
macro_rules! own {
    ($t:ident) => {
        #[derive(Fields)]
        struct Own(Option<$crate::$t>, [$crate::Local; 2]);
    };
}
macro_rules! renamed {
    ($l:literal, $m:meta) => {
        #[derive(Fields)]
        struct Renamed {
            #[field(name = $l)]
            a: u8,
            #[$m]
            b: u8,
        }
    };
}

type Table = (&'static str, Vec<(&'static str, &'static str, &'static [&'static str])>);

macro_rules! tables {
    () => {
        vec![
            ("Braces", Braces::fields().to_vec()),
            ("Parentheses", Parentheses::fields().to_vec()),
            ("Parameters", Parameters::<u8, 3>::fields().to_vec()),
            ("Variants", Variants::fields().to_vec()),
            ("Discriminants", Discriminants::fields().to_vec()),
            ("Union", Union::fields().to_vec()),
            ("Unit", Unit::fields().to_vec()),
            ("Own", Own::fields().to_vec()),
            ("Renamed", Renamed::fields().to_vec()),
        ]
    };
}

mod direct {
    use super::*;

    /// In braces.
    #[derive(Fields)]
    pub struct Braces {
        /// The first one.
        #[field(name = "first")]
        pub a: Vec<Option<u8>>,
        pub(crate) b: <Vec<u8> as IntoIterator>::Item,
        #[field(skip)]
        c: fn(u8) -> u8,
        r#type: (u8, &'static str),
    }
    #[derive(Fields)]
    pub(crate) struct Parentheses(pub u8, #[field(name = "rest")] pub(crate) Vec<u8>, (u8, u8));
    #[derive(Fields)]
    pub struct Parameters<'a, T: Clone + 'a = u8, const N: usize = 3>
    where
        u16: Copy,
    {
        pub a: &'a [T; N],
        b: fn(T) -> u16,
    }
    #[derive(Fields)]
    enum Variants {
        Unit,
        #[allow(unused)]
        Tuple(u8, Vec<u8>),
        Struct {
            a: u8,
        },
    }
    #[derive(Fields)]
    #[repr(u8)]
    pub enum Discriminants {
        First = 1 << 2,
        Last,
    }
    #[derive(Fields)]
    pub union Union {
        a: u8,
        pub b: [u8; 4],
    }
    #[derive(Fields)]
    struct Unit;
    #[derive(Fields)]
    struct Own(Option<crate::Local>, [crate::Local; 2]);
    #[derive(Fields)]
    struct Renamed {
        #[field(name = "x")]
        a: u8,
        #[field(skip)]
        b: u8,
    }

    pub fn tables() -> Vec<Table> {
        tables!()
    }
}

mod through {
    use super::*;

    braces_twice! {
        /// In braces.
        pub struct Braces {
            /// The first one.
            #[field(name = "first")]
            pub a: Vec<Option<u8>>,
            pub(crate) b: <Vec<u8> as IntoIterator>::Item,
            #[field(skip)]
            c: fn(u8) -> u8,
            r#type: (u8, &'static str),
        }
    }
    parentheses! {
        pub(crate) struct Parentheses(pub u8, #[field(name = "rest")] pub(crate) Vec<u8>, (u8, u8))
    }
    parameters!(Parameters, 'a, T, Clone, u8, N, usize, 3, u16, T);
    variants!(Variants { Unit, #[allow(unused)] Tuple(u8, Vec<u8>), Struct { a: u8 } });
    discriminants!(pub Discriminants, First, 1 << 2);
    union_of!(pub Union, a: u8, b: [u8; 4]);
    whole!(
        struct Unit;
    );
    own!(Local);
    renamed!("x", field(skip));

    pub fn tables() -> Vec<Table> {
        tables!()
    }
}

fn main() {
    let tables = direct::tables();
    assert_eq!(tables, through::tables());
    for (item, fields) in tables {
        println!("{item}");
        for (name, ty, attributes) in fields {
            println!("  {name}: {ty} {attributes:?}");
        }
    }
}
