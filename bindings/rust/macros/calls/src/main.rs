//! Lists of arguments, each given to a macro directly and through `macro_rules`, whose fragments the
//! compiler wraps in invisible groups.
#![allow(dead_code)]
#[cfg(feature = "c-strings")]
mod c_string;

use setting::try_settings_syn;
use setting::{
    marked, numbers, peeks, replay, setting, setting_syn, settings, settings_syn, try_settings,
};

// The same arguments, with everything in the place of a fragment.
macro_rules! inner {
    ($show:ident; $l:literal, $e:expr, $a:ident, $b:ident) => {
        $show!(name = $l, limit = $e, flags($a, $b))
    };
}
macro_rules! outer {
    ($show:ident; $l:literal, $e:expr, $a:ident, $b:ident) => { inner!($show; $l, $e, $a, $b) };
}
// An expression around a literal around a literal.
macro_rules! deep {
    ($show:ident; $e:expr) => { deeper!($show; $e) };
}
macro_rules! deeper {
    ($show:ident; $e:expr) => {
        $show!(limit = $e,)
    };
}
macro_rules! literal_as_expr {
    ($show:ident; $l:literal) => { deep!($show; $l) };
}
macro_rules! whole_meta {
    ($show:ident; $m:meta) => {
        $show!($m)
    };
}
macro_rules! two_metas {
    ($show:ident; $m:meta, $n:meta) => {
        $show!($m, $n)
    };
}
macro_rules! nested_meta {
    ($show:ident; $m:meta) => {
        $show!(flags($m, b))
    };
}
macro_rules! as_path {
    ($show:ident; $p:path) => {
        $show!($p = 1, b)
    };
}
macro_rules! as_type {
    ($show:ident; $p:ty) => {
        $show!(t($p))
    };
}
macro_rules! as_type_list {
    ($show:ident; $p:ty) => {
        $show!($p)
    };
}
macro_rules! with_vis { ($show:ident; $v:vis, $l:literal) => { $show!($v name = $l) }; }
macro_rules! vis_inside {
    ($show:ident; $v:vis, $l:literal) => {
        $show!(v($v), name = $l)
    };
}
macro_rules! vis_alone {
    ($show:ident; $v:vis,) => {
        $show!($v)
    };
}
macro_rules! vis_after { ($show:ident; $v:vis, $l:literal) => { $show!(name = $l $v) }; }
macro_rules! vis_value { ($show:ident; $v:vis, $l:literal) => { $show!(name = $v $l, b) }; }
macro_rules! vis_last {
    ($show:ident; $v:vis, $l:literal) => {
        $show!(name = $l, $v)
    };
}
macro_rules! as_life {
    ($show:ident; $l:lifetime) => {
        $show!(a = $l)
    };
}
macro_rules! as_block { ($show:ident; $l:block) => { $show!(a $l) }; }
macro_rules! as_crate {
    ($show:ident;) => {
        $show!(a($crate))
    };
}
macro_rules! as_expr_call {
    ($show:ident; $e:expr) => {
        $show!($e, b)
    };
}

macro_rules! attribute {
    ($l:literal, $e:expr, $a:ident, $v:vis, $t:ty) => {
        #[setting(name = $l, limit = $e, flags($a, b))]
        #[setting_syn(name = $l, limit = $e, flags($a, b))]
        $v struct Made($t);
    };
}
macro_rules! attribute_outer {
    ($l:literal, $e:expr, $a:ident, $v:vis, $t:ty) => {
        attribute!($l, $e, $a, $v, $t);
    };
}
mod direct {
    use super::*;
    #[setting(name = "x", limit = 3, flags(a, b))]
    #[setting_syn(name = "x", limit = 3, flags(a, b))]
    pub struct Made(Vec<u8>);
}
mod once {
    use super::*;
    attribute!("x", 3, a, pub, Vec<u8>);
}
mod twice {
    use super::*;
    attribute_outer!("x", 3, a, , Vec<u8>);
}

macro_rules! row {
    ($what:literal: $($call:tt)*) => { row_of!($what; $($call)*) };
}
macro_rules! row_of {
    ($what:literal; $name:ident! $($rest:tt)*) => {
        println!("{}\n  tokens  {}\n  proved  {}\n  syn     {}", $what,
            $name!(marked; $($rest)*), $name!(try_settings; $($rest)*),
            $name!(try_settings_syn; $($rest)*));
    };
}
macro_rules! commands {
    ($($all:tt)*) => {
        replay!("parse 0 Ident\nparse 0 =\nparse 0 Literal\nempty 0\nparse 0 ,\nparse 0 Ident\nenter 0 (\nparse 1 Ident\nempty 1\nclose 1\nempty 0", $($all)*)
    };
}
macro_rules! replayed {
    ($i:ident, $e:expr, $p:path) => {
        replayed_twice!($i, $e, $p)
    };
}
macro_rules! replayed_twice {
    ($i:ident, $e:expr, $p:path) => {
        commands!($i = $e, flags($p))
    };
}
macro_rules! numbered {
    ($i:ident, $e:expr, $p:path) => {
        numbered_twice!($i, $e, $p)
    };
}
macro_rules! numbered_twice {
    ($i:ident, $e:expr, $p:path) => {
        numbers!($i = $e, flags($p))
    };
}
macro_rules! peek_expr {
    ($e:expr) => {
        peeks!($e, b)
    };
}
macro_rules! peek_after { ($p:path, $e:expr) => { peeks!($p $e, b) }; }
macro_rules! peek_vis { ($v:vis, $i:ident) => { peeks!($v $i, b) }; }
macro_rules! plainly { ($show:ident; $($rest:tt)*) => { $show!($($rest)*) }; }

fn main() {
    assert_eq!(direct::SETTING, once::SETTING);
    assert_eq!(direct::SETTING, twice::SETTING);
    assert_eq!(direct::SETTING, direct::SETTING_SYN);
    assert_eq!(direct::SETTING, once::SETTING_SYN);
    assert_eq!(direct::SETTING, twice::SETTING_SYN);
    println!("attribute: {}", twice::SETTING);
    let direct = settings!(name = "x", limit = 3, flags(a, b));
    assert_eq!(direct, inner!(settings; "x", 3, a, b));
    assert_eq!(direct, outer!(settings; "x", 3, a, b));
    assert_eq!(direct, outer!(settings_syn; "x", 3, a, b));
    println!("function:  {direct}");

    row!("direct": plainly! name = "x", limit = 3, flags(a, b));
    row!("fragments, nested twice": outer! "x", 3, a, b);
    row!("an expression, nested": deep! 3);
    row!("a literal, then twice an expression": literal_as_expr! 3);
    row!("negative, direct": plainly! limit = -3,);
    row!("negative, as expression": deep! -3);
    row!("negative, as literal": literal_as_expr! -3);
    row!("a sum, direct": plainly! limit = 3 + 4,);
    row!("a sum, as expression": deep! 3 + 4);
    row!("in parentheses, direct": plainly! limit = (3),);
    row!("in parentheses, as expression": deep! (3));
    row!("meta a = 1": whole_meta! a = 1);
    row!("meta flags(a, b)": whole_meta! flags(a, b));
    row!("metas a = 1, b": two_metas! a = 1, b);
    row!("meta a = 1 inside": nested_meta! a = 1);
    row!("path a": as_path! a);
    row!("path a::b": as_path! a::b);
    row!("type u8 inside": as_type! u8);
    row!("type Vec<u8> inside": as_type! Vec<u8>);
    row!("type a, alone": as_type_list! a);
    row!("expression flags(a), then b": as_expr_call! flags(a));
    row!("expression a, then b": as_expr_call! a);
    row!("no visibility before a name": with_vis! , "x");
    row!("visibility before a name": with_vis! pub, "x");
    row!("no visibility inside": vis_inside! , "x");
    row!("no visibility inside, direct": plainly! v(), name = "x");
    row!("visibility inside": vis_inside! pub, "x");
    row!("no visibility alone": vis_alone! ,);
    row!("nothing, direct": plainly!);
    row!("no visibility last": vis_after! , "x");
    row!("no visibility after the last comma": vis_last! , "x");
    row!("no visibility before a value": vis_value! , "x");
    row!("lifetime": as_life! 'a);
    row!("lifetime, direct": plainly! a = 'a);
    row!("block": as_block! { 1 });
    row!("$crate": as_crate!);
    row!("words": plainly! type, r#type, self);
    row!("words by raw": plainly! r#type, a);
    row!("literals": plainly! a = 1.0e3_f32, a = 'x', a = b"b", a = r#"r"#, a = 1., a = "s"suffix);
    row!("bool": plainly! a = true);
    row!("path": plainly! a::b);
    #[cfg(feature = "c-strings")]
    c_string::show();
    println!("is `,` next, second, third:");
    println!("  - 3, b         {}", peeks!(-3, b));
    println!("  « - 3 », b     {}", peek_expr!(-3));
    println!("  « 3 », b       {}", peek_expr!(3));
    println!("  a 3, b         {}", peeks!(a 3, b));
    println!("  « a » « 3 », b {}", peek_after!(a, 3));
    println!("  c, b           {}", peeks!(c, b));
    println!("  « » c, b       {}", peek_vis!(, c));
    println!("  pub c, b       {}", peeks!(pub c, b));
    println!("  « pub » c, b   {}", peek_vis!(pub, c));
    println!("the numbers of tokens, direct and through two macros:");
    println!("  {}", numbers!(name = -3, flags(a)));
    println!("  {}", numbered!(name, -3, a));
    println!("commands, direct:\n{}", commands!(name = 3, flags(a)));
    println!("commands, through two macros:\n{}", replayed!(name, 3, a));
}
