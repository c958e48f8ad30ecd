//! A call of a macro with a C string, which an older compiler does not read.
use setting::try_settings;

/// Prints the answer of the library. `syn` 1.0.107 panics with "Unrecognized literal".
pub fn show() {
    println!("a C string, proved alone: {}", try_settings!(a = c"c"));
}
