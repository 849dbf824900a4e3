//! Links the proved archive: libgm.a in the folder GM_ARCHIVE, or in the repository's own. With the feature `speed` also the entries in plain C:
//! libplain.a, which the makefile builds.
use std::path::{Path, PathBuf};

fn link(folder: &Path, name: &str) {
    println!("cargo:rerun-if-changed={}", folder.join(format!("lib{name}.a")).display());
    println!("cargo:rustc-link-search=native={}", folder.display());
    println!("cargo:rustc-link-lib=static={name}");
}

fn main() {
    println!("cargo:rerun-if-env-changed=GM_ARCHIVE");
    let here = PathBuf::from(std::env::var("CARGO_MANIFEST_DIR").expect("cargo names the package's folder"));
    let folder = std::env::var("GM_ARCHIVE").map(PathBuf::from).unwrap_or_else(|_| here.join("../../target/staticlib"));
    link(&folder, "gm");
    if std::env::var("CARGO_FEATURE_SPEED").is_ok() {
        link(&here.join("../../target/c"), "plain");
    }
}
