//! The stored inputs and expected outputs of the programs and of the C examples.

use crate::{desk_text, gateway, gen, listing, programs, router, tree_text, watch};
use std::path::{Path, PathBuf};

/// Every stored file, from the repository's root, with what it must hold.
fn files(writes: bool) -> Vec<(&'static str, Vec<u8>)> {
    let frames = gen::frames::stored();
    let octets = gen::octets::stored();
    let tree = gen::tree::requests::stored(writes);
    let stream = gateway::stream();
    let (passed, counts) = gateway::gateway(&stream);
    let routed = router::stream();
    let (answered, picture) = router::router(&routed);
    let (offered, request, said) = router::plugin();
    let packets = gen::packets::stored();
    let stored_listing = gen::tree::stored_listing();
    let desk = gen::desk::scripts::stored();
    let sheet = gen::desk::sheets::stored();
    let showings = gen::watch::stored();
    vec![
        ("crates/frames/stdout", programs::frames(&frames).into_bytes()),
        ("crates/frames/stdin", frames),
        ("crates/octets/stdout", programs::octets(&octets).into_bytes()),
        ("crates/octets/stdin", octets),
        ("crates/tree/stdout", tree_text::trees(&tree, writes).into_bytes()),
        ("crates/tree/stdin", tree),
        ("examples/gateway/check/passed.hex", gateway::hex_lines(&passed)),
        ("examples/gateway/check/counts", counts.into_bytes()),
        ("examples/gateway/check/stream.hex", gateway::hex_lines(&stream)),
        ("examples/router/check/stream.hex", gateway::hex_lines(&routed)),
        ("examples/router/check/answers.hex", gateway::hex_lines(&answered)),
        ("examples/router/check/picture", picture.into_bytes()),
        ("examples/plugin/check/stream.hex", gateway::hex_lines(&offered)),
        ("examples/plugin/check/request.hex", gateway::hex_lines(&request)),
        ("examples/plugin/check/said", said.into_bytes()),
        ("crates/packets/stdout", programs::packets(&packets).into_bytes()),
        ("crates/packets/stdin", packets),
        ("crates/listing/stdout", listing::listing(&stored_listing).into_bytes()),
        ("crates/listing/stdin", stored_listing),
        ("crates/desk/stdout", desk_text::desks(&desk).into_bytes()),
        ("crates/desk/stdin", desk),
        ("crates/sheet/stdout", programs::sheets(&sheet).into_bytes()),
        ("crates/sheet/stdin", sheet),
        ("examples/sheets/ends", gen::desk::sheets::stored_ends()),
        ("crates/watch/stdout", watch::watch(&showings).into_bytes()),
        ("crates/watch/stdin", showings),
    ]
}

const HOW: &str = "without the requests `write HEX` of crates/tree: `reference store --write` adds them to stdin and stdout.
Once the program takes them, set WRITES in reference/src/tree_text.rs, and --write is not needed any more.";

/// The nearest folder at or above this one that has `crates.txt` or `crates`.
fn root() -> Option<PathBuf> {
    let here = std::env::current_dir().ok()?;
    here.ancestors().find(|folder| folder.join("crates.txt").exists() || folder.join("crates").is_dir()).map(Path::to_path_buf)
}

/// `store [--check] [--write] [ROOT]`: writes the files that differ, or only names them; with --write the requests of the
/// program `tree` to write are among them. The exit code: 0, or 1 if any differs under --check, or 2.
pub fn command(words: &[&str]) -> i32 {
    let check = words.contains(&"--check");
    let writes = tree_text::WRITES || words.contains(&"--write");
    let folders: Vec<&&str> = words.iter().filter(|word| !["--check", "--write"].contains(*word)).collect();
    let root = match folders.as_slice() {
        [] => root(),
        [folder] => Some(PathBuf::from(folder)),
        _ => None,
    };
    let Some(root) = root else {
        eprintln!("store: name the repository's root");
        return 2;
    };
    let mut changed = 0;
    for (name, bytes) in files(writes) {
        let path = root.join(name);
        if !path.parent().is_some_and(Path::is_dir) {
            println!("skipped  {name}: no such folder");
            continue;
        }
        if std::fs::read(&path).is_ok_and(|old| old == bytes) {
            println!("same     {name} ({} bytes)", bytes.len());
            continue;
        }
        changed += 1;
        if check {
            println!("differs  {name}");
            continue;
        }
        if let Err(error) = std::fs::write(&path, &bytes) {
            eprintln!("store: {name}: {error}");
            return 2;
        }
        println!("written  {name} ({} bytes)", bytes.len());
    }
    if !writes {
        println!("{}", HOW);
    }
    i32::from(check && changed > 0)
}
