struct A { x u8 }
struct B { x: }
struct C { x: u8 y: u8 }
struct D(u8, , u16);
struct E(u8)
struct struct;
struct F<T { x: u8 }
struct G { pub }
enum H { A = , B }
enum I { A B }
enum J;
union K(u8);
union L { 1: u8 }
#[] struct M;
#[a = ] struct N;
pub(in) struct O;
pub(u8) struct P;
struct Q where T: Copy { x: u8 } struct R { y: u8, 'z }
mod m { struct S }
struct T { struct U { z: u8 } }
#[a] fn f() { /* é */ struct V { ü: u8, pub(crate) } }
#[a = 1, 2] struct V;
struct W { #[b(c) d] x: u8 }
pub(in a b) struct X;
struct
