//! Links the static library, from ECGSLOPE_LIB_DIR or else from where the repository builds it.

use std::env;
use std::path::PathBuf;

fn main() {
    let manifest = PathBuf::from(env::var_os("CARGO_MANIFEST_DIR").expect("cargo sets it"));
    let dir = env::var_os("ECGSLOPE_LIB_DIR")
        .map(PathBuf::from)
        .unwrap_or_else(|| manifest.join("../../target/staticlib"));
    println!("cargo:rerun-if-env-changed=ECGSLOPE_LIB_DIR");
    println!(
        "cargo:rerun-if-changed={}",
        dir.join("libecgslope.a").display()
    );
    println!("cargo:rustc-link-search=native={}", dir.display());
    println!("cargo:rustc-link-lib=static=ecgslope");
}
