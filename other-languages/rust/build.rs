//! Links librodcrank.a, which `other-languages/run library` writes to target/staticlib at the top of the repository. RODCRANK_LIB names another folder.
use std::{env, path::Path};

fn main() {
    let own = Path::new(&env::var("CARGO_MANIFEST_DIR").unwrap()).join("../../target/staticlib");
    let folder = env::var("RODCRANK_LIB").map_or(own, Into::into);
    let archive = folder.join("librodcrank.a");
    println!("cargo:rerun-if-env-changed=RODCRANK_LIB");
    println!("cargo:rerun-if-changed={}", archive.display());
    if !archive.exists() {
        panic!("there is no {}: `other-languages/run library` writes it", archive.display());
    }
    println!("cargo:rustc-link-search=native={}", folder.display());
    println!("cargo:rustc-link-lib=static=rodcrank");
}
