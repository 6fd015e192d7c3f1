//! Where libember.a is: the folder that EMBER_LIB names, or target/staticlib of the repository (`make target/staticlib/libember.a` there).
use std::path::PathBuf;

fn main() {
    let folder = std::env::var_os("EMBER_LIB").map_or_else(
        || PathBuf::from(std::env::var_os("CARGO_MANIFEST_DIR").unwrap()).join("../../target/staticlib"),
        PathBuf::from,
    );
    if !folder.join("libember.a").exists() {
        println!(
            "cargo:warning=no libember.a in {}: `make target/staticlib/libember.a` in the repository, or name its folder in EMBER_LIB",
            folder.display()
        );
    }
    println!("cargo:rerun-if-env-changed=EMBER_LIB");
    println!("cargo:rerun-if-changed={}", folder.join("libember.a").display());
    println!("cargo:rustc-link-search=native={}", folder.display());
    println!("cargo:rustc-link-lib=static=ember");
}
