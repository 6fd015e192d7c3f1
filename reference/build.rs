//! Links the proved tree library into the command, for `reference compare rows`: `libglow_c.a` in the folder that GLOW_LIB
//! names, or in target/staticlib of the repository, if it is there when this is built and has the functions compared. The
//! decoder itself needs nothing of it.
use std::path::PathBuf;

fn main() {
    println!("cargo:rerun-if-changed=build.rs");
    println!("cargo:rerun-if-env-changed=GLOW_LIB");
    let named = std::env::var_os("GLOW_LIB").map(PathBuf::from);
    let folder = named.clone().unwrap_or_else(|| {
        let here = PathBuf::from(std::env::var_os("CARGO_MANIFEST_DIR").unwrap());
        here.join("../target/staticlib")
    });
    let library = folder.join("libglow_c.a");
    let Ok(octets) = std::fs::read(&library) else {
        if named.is_some() {
            println!("cargo:warning={} is not there: no compare rows", library.display());
        }
        return;
    };
    println!("cargo:rerun-if-changed={}", library.display());
    // The names stand in the archive's list of symbols.
    let has = |name: &[u8]| octets.windows(name.len()).any(|window| window == name);
    if [&b"glow_accepts\0"[..], b"glow_write\0", b"glow_read\0"].iter().all(|name| has(name)) {
        println!("cargo:rustc-cfg=glow_rows");
        println!("cargo:rustc-link-search=native={}", folder.display());
    } else if named.is_some() {
        println!("cargo:warning={} has no glow_accepts and glow_write: no compare rows", library.display());
    }
}
