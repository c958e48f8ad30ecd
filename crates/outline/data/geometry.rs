//! Points and lines.
#![warn(missing_docs)]
#![cfg_attr(not(feature = "std"), no_std)]

/// A point.
#[derive(Clone, Copy, Debug)]
#[cfg(any(feature = "plane", all(unix, not(test))))]
pub struct Point {
    #[doc(hidden)]
    x: f32,
    #[serde(rename = "éy", default = 1)] y: f32,
}

impl Point {
    #![allow(clippy::needless_return)]

    /** The sum. */
    #[inline]
    #[must_use = r"two
lines"]
    pub fn sum(&self) -> f32 { self.x + self.y }
}

macro_rules! with {
    ($(#[$meta:meta])* #[cfg $when:tt] $name:ident) => { $(#[$meta])* #[cfg $when] #[rustfmt::skip] struct $name; };
}
#[link_args { a b }] #[list[1, 2]] #[r#type] #[unsafe(no_mangle)] #[::core::prelude::v1::test] fn f() {}
