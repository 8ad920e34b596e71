//! Links libyongpham.a, which `tools/staticlib yongpham` writes to target/staticlib/ of the repository. YONGPHAM_LIB names another
//! folder that holds it. With the feature `leaves` the library that exists for comparing and timing alone is linked too.

use std::env;
use std::path::PathBuf;

/// Leaves of the library under C names of their own.
const LEAVES: &str = "leaf_exports";

fn main() {
    let beside = || {
        PathBuf::from(env::var_os("CARGO_MANIFEST_DIR").expect("cargo sets it"))
            .join("../target/staticlib")
    };
    let folder = env::var_os("YONGPHAM_LIB").map_or_else(beside, PathBuf::from);
    println!("cargo:rerun-if-env-changed=YONGPHAM_LIB");
    println!("cargo:rustc-link-search=native={}", folder.display());
    let mut names = vec!["yongpham"];
    if env::var_os("CARGO_FEATURE_LEAVES").is_some() {
        names.push(LEAVES);
    }
    for name in names {
        let file = folder.join(format!("lib{name}.a"));
        if !file.is_file() {
            eprintln!("{} is missing: `tools/staticlib {name}` makes it, in the repository's folder; YONGPHAM_LIB may name another folder", file.display());
            std::process::exit(1);
        }
        println!("cargo:rerun-if-changed={}", file.display());
        println!("cargo:rustc-link-lib=static={name}");
    }
}
