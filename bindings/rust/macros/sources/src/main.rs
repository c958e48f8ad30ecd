//! Prints how many tokens are in the files that the list `CORPUS` names. The compiler reads the
//! files.
fn main() {
    println!("{}", setting::corpus!());
}
