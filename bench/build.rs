//! Where the static library is: target/staticlib of the repository, or the folder that FRAMING_LIB names.
use std::path::PathBuf;

fn main() {
    let folder = std::env::var_os("FRAMING_LIB").map_or_else(
        || PathBuf::from(std::env::var_os("CARGO_MANIFEST_DIR").unwrap()).join("../target/staticlib"),
        PathBuf::from,
    );
    println!("cargo:rerun-if-env-changed=FRAMING_LIB");
    println!("cargo:rerun-if-changed={}", folder.join("libframing_c.a").display());
    println!("cargo:rustc-link-search=native={}", folder.display());
    println!("cargo:rustc-link-lib=static=framing_c");
    // The tree (glow) and whole turns (ember) take part where their library is.
    for (library, cfg) in [("glow_c", "glow"), ("ember", "ember")] {
        let path = folder.join(format!("lib{library}.a"));
        println!("cargo:rerun-if-changed={}", path.display());
        if path.exists() {
            println!("cargo:rustc-cfg={cfg}");
            println!("cargo:rustc-link-lib=static={library}");
        }
    }
}
