//! Tells cargo where the static library is: LAYOUT_LIBRARY is its path.

use std::path::PathBuf;

fn main() {
    println!("cargo:rerun-if-env-changed=LAYOUT_LIBRARY");
    let Some(path) = std::env::var_os("LAYOUT_LIBRARY").map(PathBuf::from) else {
        println!("cargo:warning=LAYOUT_LIBRARY is not set, so nothing is linked");
        return;
    };
    let path = std::fs::canonicalize(&path)
        .unwrap_or_else(|error| panic!("LAYOUT_LIBRARY, {}: {error}", path.display()));
    let folder = path.parent().expect("a file has a folder");
    let name = path.file_stem().and_then(|stem| stem.to_str());
    let name = name.and_then(|stem| stem.strip_prefix("lib"));
    let name = name.expect("LAYOUT_LIBRARY must be a file lib....a");
    println!("cargo:rerun-if-changed={}", path.display());
    println!("cargo:rustc-link-search=native={}", folder.display());
    println!("cargo:rustc-link-lib=static={name}");
}
