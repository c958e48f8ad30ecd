//! Finds the static library `libsyn_tokens_c.a`: in the folder that `SYN_TOKENS_LIB` names, or else
//! in this package, as releases have it, or else where the repository builds it.
use std::env;
use std::error::Error;
use std::path::{Path, PathBuf};

const LIBRARY: &str = "libsyn_tokens_c.a";

/// The folder of the library, and what to do if it is not there.
fn folder() -> (PathBuf, &'static str) {
    if let Some(folder) = env::var_os("SYN_TOKENS_LIB") {
        return (folder.into(), "SYN_TOKENS_LIB must name the folder that has it");
    }
    let package = Path::new(env!("CARGO_MANIFEST_DIR"));
    let folder = package.join("lib");
    if folder.join(LIBRARY).exists() {
        return (folder, "");
    }
    (
        package.join("../../crates/syn_tokens_c/out"),
        "run `rt lib` in crates/syn_tokens_c, or set SYN_TOKENS_LIB to the folder that has it",
    )
}

fn main() -> Result<(), Box<dyn Error>> {
    println!("cargo:rerun-if-env-changed=SYN_TOKENS_LIB");
    println!("cargo:rerun-if-changed=build.rs");
    // There the pages are made, and nothing is linked.
    if env::var_os("DOCS_RS").is_some() {
        return Ok(());
    }
    let (folder, advice) = folder();
    let library = folder.join(LIBRARY);
    if !library.exists() {
        return Err(format!("no {}: {advice}", library.display()).into());
    }
    println!("cargo:rustc-link-search=native={}", folder.display());
    // Only a file that exists: Cargo takes one that does not as changed, and builds anew.
    println!("cargo:rerun-if-changed={}", library.display());
    println!("cargo:rustc-link-lib=static=syn_tokens_c");
    Ok(())
}
