//! Links the archive that `tools/archives gerunjap` writes; GERUNJAP_LIB names another folder.
use std::{env, path::PathBuf};

fn main() {
    let own = PathBuf::from(env::var("CARGO_MANIFEST_DIR").unwrap()).join("../../target/staticlib");
    let folder = env::var("GERUNJAP_LIB").map(PathBuf::from).unwrap_or(own);
    println!("cargo:rustc-link-search=native={}", folder.display());
    println!("cargo:rustc-link-lib=static=gerunjap");
    println!("cargo:rerun-if-env-changed=GERUNJAP_LIB");
}
