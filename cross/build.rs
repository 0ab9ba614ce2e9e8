//! Links the library that is installed: `build/libbattenplum.a`, or the one in the folder that BATTENPLUM_BUILD names.

use std::{env, path::PathBuf};

fn main() {
    let beside = PathBuf::from(env::var("CARGO_MANIFEST_DIR").unwrap()).join("../build");
    let folder = env::var("BATTENPLUM_BUILD").map(PathBuf::from).unwrap_or(beside);
    println!("cargo:rustc-link-search=native={}", folder.display());
    println!("cargo:rustc-link-lib=static=battenplum");
    println!("cargo:rerun-if-changed={}", folder.join("libbattenplum.a").display());
    println!("cargo:rerun-if-env-changed=BATTENPLUM_BUILD");
}
