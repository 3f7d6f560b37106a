//! Finds libcmh.a: in the folder that CMH_LIBRARY names, or where scripts/library/build puts it.
use std::{env, path::PathBuf};

fn main() {
    let beside = PathBuf::from(env!("CARGO_MANIFEST_DIR")).join("../../out/library");
    let folder = env::var_os("CMH_LIBRARY").map_or(beside, PathBuf::from);
    println!("cargo:rerun-if-env-changed=CMH_LIBRARY");
    println!(
        "cargo:rerun-if-changed={}",
        folder.join("libcmh.a").display()
    );
    println!("cargo:rustc-link-search=native={}", folder.display());
}
