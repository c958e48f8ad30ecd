//! The macro on a list that `bench/macros` writes.
#[cfg(counted)]
include!(env!("LIST"));
