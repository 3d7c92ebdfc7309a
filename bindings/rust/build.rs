//! Links the archive that `rt lib` writes in crates/rolvenko. ROLVENKO_ARCHIVE names its folder where it is not the repository's own.

use std::env;
use std::path::PathBuf;

fn main() {
    let folder = env::var_os("ROLVENKO_ARCHIVE").map_or_else(
        || PathBuf::from(env!("CARGO_MANIFEST_DIR")).join("../../crates/rolvenko/out"),
        PathBuf::from,
    );
    println!("cargo:rerun-if-env-changed=ROLVENKO_ARCHIVE");
    println!("cargo:rerun-if-changed={}", folder.join("librolvenko.a").display());
    println!("cargo:rustc-link-search=native={}", folder.display());
    println!("cargo:rustc-link-lib=static=rolvenko");
}
