//! Links the archive: from the folder that MORSKEBAB_ARCHIVE names, or from the repository's target folder, where that of x86-64 and that of
//! another processor stand apart.
use std::env;
use std::path::PathBuf;

fn main() {
    let here = PathBuf::from(env::var("CARGO_MANIFEST_DIR").expect("cargo names the crate's folder"));
    let processor = env::var("CARGO_CFG_TARGET_ARCH").expect("cargo names the processor");
    let built = here.join("../../target").join(if processor == "x86_64" { "staticlib" } else { "native" });
    let folder = env::var("MORSKEBAB_ARCHIVE").map_or(built, PathBuf::from);
    println!("cargo:rerun-if-env-changed=MORSKEBAB_ARCHIVE");
    println!("cargo:rerun-if-changed={}", folder.join("libmorskebab.a").display());
    println!("cargo:rustc-link-search=native={}", folder.display());
    println!("cargo:rustc-link-lib=static=morskebab");
}
