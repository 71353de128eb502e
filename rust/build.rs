//! Links target/staticlib/libgedrashiw.a, which `bin/c_library` proves and builds. The variable GEDRASHIW_LIBRARY may name the
//! folder of another. `cargo check` needs none.
use std::{env, path::PathBuf};

fn main() {
    let here = PathBuf::from(env::var_os("CARGO_MANIFEST_DIR").expect("cargo says where the package is"));
    let folder = env::var_os("GEDRASHIW_LIBRARY").map_or_else(|| here.join("../target/staticlib"), PathBuf::from);
    let library = folder.join("libgedrashiw.a");
    if !library.is_file() {
        println!("cargo::warning={} is not there; bin/c_library builds it", library.display());
    }
    println!("cargo::rustc-link-search=native={}", folder.display());
    // Not bundled: so that a check does not need the archive.
    println!("cargo::rustc-link-lib=static:-bundle=gedrashiw");
    println!("cargo::rerun-if-changed={}", library.display());
    println!("cargo::rerun-if-env-changed=GEDRASHIW_LIBRARY");
}
