//! Shows which fragments of `macro_rules` the compiler wraps in invisible groups. The signs `«` and
//! `»` stand for the delimiters of these groups.
#![allow(unused)]
use setting::{marked, marked_attribute};

/// Declares a macro for each kind of fragment, which passes the fragment on. The first token is a
/// dollar sign.
macro_rules! passes {
    ($d:tt $($name:ident)*) => {
        $(macro_rules! $name { ($d x:$name) => { marked!(a = $d x, b) }; })*
    };
}
passes! { $ block expr ident item lifetime literal meta pat path stmt tt ty }

macro_rules! vis {
    ($x:vis,) => {
        marked!($x a, b)
    };
}
macro_rules! vis_twice {
    ($x:vis,) => {
        vis!($x,)
    };
}
macro_rules! twice {
    ($kind:ident $x:literal) => {
        $kind!($x)
    };
}
macro_rules! expr_twice {
    ($x:expr) => {
        expr!($x)
    };
}
macro_rules! expr_thrice {
    ($x:expr) => {
        expr_twice!($x)
    };
}
macro_rules! sum {
    ($x:expr) => {
        expr!($x + 1)
    };
}
macro_rules! ident_twice {
    ($x:ident) => {
        ident!($x)
    };
}
macro_rules! ident_as_expr {
    ($x:ident) => {
        expr!($x)
    };
}
macro_rules! ty_twice {
    ($x:ty) => {
        ty!($x)
    };
}
macro_rules! of_crate {
    () => {
        marked!($crate::a, b)
    };
}
macro_rules! attribute {
    ($l:literal, $e:expr, $i:ident, $t:ty, $v:vis,) => {
        #[marked_attribute(name = $l, limit = $e, flags($i), t($t), v($v))]
        $v struct $i($t);
    };
}
macro_rules! attribute_twice {
    ($l:literal, $e:expr, $i:ident, $t:ty, $v:vis,) => {
        attribute!($l, $e, $i, $t, $v,);
    };
}
mod once {
    use super::*;
    attribute!("x", 3, A, u8, pub,);
}
mod through_two {
    use super::*;
    attribute_twice!("x", 3 + 4, A, Vec<u8>, ,);
}

fn main() {
    println!("block             {}", block!({ 1 }));
    println!("expr 3            {}", expr!(3));
    println!("expr -3           {}", expr!(-3));
    println!("expr 1 + 2        {}", expr!(1 + 2));
    println!("expr x            {}", expr!(x));
    println!("expr (1)          {}", expr!((1)));
    println!("expr f(1, 2)      {}", expr!(f(1, 2)));
    println!("ident             {}", ident!(x));
    println!(
        "item              {}",
        item!(
            struct S;
        )
    );
    println!("lifetime          {}", lifetime!('a));
    println!("literal 3         {}", literal!(3));
    println!("literal -3        {}", literal!(-3));
    println!("literal true      {}", literal!(true));
    println!("literal \"x\"       {}", literal!("x"));
    println!("meta              {}", meta!(doc = "x"));
    println!("pat               {}", pat!(Some(x)));
    println!("path a            {}", path!(a));
    println!("path a::b         {}", path!(a::b));
    println!("stmt              {}", stmt!(let x = 1));
    println!("tt                {}", tt!(x));
    println!("ty u8             {}", ty!(u8));
    println!("ty Vec<u8>        {}", ty!(Vec<u8>));
    println!("ty &'a u8         {}", ty!(&'a u8));
    println!("vis, none         {}", vis!(,));
    println!("vis pub           {}", vis!(pub,));
    println!("vis pub(crate)    {}", vis!(pub(crate),));
    println!("$crate            {}", of_crate!());
    println!("expr as expr      {}", expr_twice!(3));
    println!("and again         {}", expr_thrice!(3));
    println!("expr + 1 as expr  {}", sum!(3));
    println!("literal as expr   {}", twice!(expr 3));
    println!("literal as itself {}", twice!(literal 3));
    println!("ident as itself   {}", ident_twice!(x));
    println!("ident as expr     {}", ident_as_expr!(x));
    println!("ty as itself      {}", ty_twice!(Vec<u8>));
    println!("vis as itself     {}", vis_twice!(pub,));
    println!("no vis as itself  {}", vis_twice!(,));
    println!("attribute         {}", once::MARKED);
    println!("through two       {}", through_two::MARKED);
}
