//! Shapes.
#![allow(dead_code)]

/// A point.
#[derive(Clone, Copy)]
#[cfg(any(feature = "plane", not(test)))]
pub struct Point<T: Copy = f32> {
    #[serde(rename = "X", default)]
    pub x: T,
    pub(crate) y: T,
}

pub(in crate::shapes) struct Pair<'a, T, const N: usize>(
    pub &'a [T; N],
    #[a] pub(super) (u8, u16),
    pub (u8, u8),
    fn(Vec<Vec<T>>) -> Option<T>,
)
where
    T: Into<Vec<u8>>,
    [u8; { N }]: Copy;

struct Unit;
struct Empty {}
struct Nothing();

#[repr(i8)]
pub enum Shape<T = Vec<u8>>
where
    T: Copy,
{
    #[default]
    Point,
    Circle { radius: f32, centre: Point<T> } = 1 << 2,
    /** A
    square. */
    Square(T, #[skip] Box<dyn Fn(u8) -> u8 + Send>) = { struct Inner { z: u8 } -1 },
    Path(<T as Into<u8>>::X) = if 1 < 2 { 3 } else { 'é' as isize },
}

enum Never {}

pub union Number {
    pub whole: u64,
    part: f64,
    r#type: [u8; 8],
}

fn f(union: u8) -> u8 {
    macro_rules! make { ($n:ident) => { struct $n { x: u8 } }; }
    make! { struct InMacro; }
    if !(union == 1) { return union; }
    struct Local { here: bool } /* é */ struct Next(u8);
    union
}

mod inside {
    impl Trait for () {
        const C: u8 = { enum Deep { A = 0x1F } 1 };
    }
    pub macro made($x:ident) { struct InMade; }
}
