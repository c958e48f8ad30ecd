//! Finds the static library `libexample_fields.a`: in the folder that `EXAMPLE_FIELDS_LIB` names,
//! or else where `rt lib` makes it.
use std::env;
use std::error::Error;
use std::path::{Path, PathBuf};

fn main() -> Result<(), Box<dyn Error>> {
    println!("cargo:rerun-if-env-changed=EXAMPLE_FIELDS_LIB");
    println!("cargo:rerun-if-changed=build.rs");
    let made = Path::new(env!("CARGO_MANIFEST_DIR")).join("../../crates/example_fields/out");
    let folder = env::var_os("EXAMPLE_FIELDS_LIB").map_or(made, PathBuf::from);
    let library = folder.join("libexample_fields.a");
    if !library.exists() {
        let advice = "run `rt lib` in crates/example_fields, or set EXAMPLE_FIELDS_LIB";
        return Err(format!("no {}: {advice}", library.display()).into());
    }
    println!("cargo:rerun-if-changed={}", library.display());
    println!("cargo:rustc-link-search=native={}", folder.display());
    println!("cargo:rustc-link-lib=static=example_fields");
    Ok(())
}
