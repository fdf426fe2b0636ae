//! Tells Cargo where `libotzarvim.a` stands: the folder named by OTZARVIM_LIB, or the repository's own `target/lib`, where
//! `bindings/check.sh` puts it.

use std::{env, path::PathBuf};

fn main() {
    let here = PathBuf::from(env::var("CARGO_MANIFEST_DIR").expect("Cargo sets it"));
    let folder = env::var("OTZARVIM_LIB").map_or_else(|_| here.join("../../target/lib"), PathBuf::from);
    println!("cargo:rustc-link-search=native={}", folder.display());
    println!("cargo:rerun-if-env-changed=OTZARVIM_LIB");
    println!("cargo:rerun-if-changed={}", folder.join("libotzarvim.a").display());
}
