//! The command `reference`: an independent reading of document 01.

#[cfg(glow_rows)]
mod library;

use reference::{compare, compare_rows, desk_text, gen, listing, programs, store, tree_text, watch};
use std::io::{Read, Write};
use std::process::exit;

const USAGE: &str = "usage:
  reference frames|octets|packets|listing|tree|rewrite|desk|sheet|watch < input
  reference tree --write < input
  reference generate frames|octets|packets|tree|listing|messages|rows|desk|watch SEED COUNT
  reference generate tree SEED COUNT --write
  reference generate sheet SEED
  reference store [--check] [--write] [ROOT]
  reference compare ROOT NAME... [--seed S] [--count N] [--seconds T] [--program PATH] [--write]
  reference compare rows N SEED
";

fn main() {
    let words: Vec<String> = std::env::args().skip(1).collect();
    let words: Vec<&str> = words.iter().map(String::as_str).collect();
    match words.as_slice() {
        ["frames"] => print(programs::frames(&input()).as_bytes()),
        ["listing"] => print(listing::listing(&input()).as_bytes()),
        ["octets"] => print(programs::octets(&input()).as_bytes()),
        ["packets"] => print(programs::packets(&input()).as_bytes()),
        ["tree"] => print(tree_text::trees(&input(), tree_text::WRITES).as_bytes()),
        ["tree", "--write"] => print(tree_text::trees(&input(), true).as_bytes()),
        ["rewrite"] => print(programs::trees(&input()).as_bytes()),
        ["desk"] => print(desk_text::desks(&input()).as_bytes()),
        ["sheet"] => print(programs::sheets(&input()).as_bytes()),
        ["watch"] => print(watch::watch(&input()).as_bytes()),
        ["generate", "tree", seed, count, "--write"] => {
            let number = |word: &str| word.parse().unwrap_or_else(|_| usage());
            print(&gen::tree::requests::input(number(seed), number(count) as usize, true).0)
        }
        ["generate", "sheet", seed] => print(&gen::desk::sheets::input(seed.parse().unwrap_or_else(|_| usage())).0),
        ["generate", kind, seed, count] => {
            let seed = seed.parse().unwrap_or_else(|_| usage());
            let count = count.parse().unwrap_or_else(|_| usage());
            match *kind {
                "frames" => print(&gen::frames::input(seed, count).0),
                "octets" => print(&gen::octets::input(seed, count).0),
                "packets" => print(&gen::packets::input(seed, count).0),
                "listing" => print(&gen::tree::listing_input(seed, count).0),
                "tree" => print(&gen::tree::requests::input(seed, count, tree_text::WRITES).0),
                "messages" => print(&gen::tree::messages(seed, count)),
                "rows" => print(gen::rows::text(seed, count).as_bytes()),
                "desk" => print(&gen::desk::scripts::input(seed, count).text),
                "watch" => print(&gen::watch::input(seed, count).0),
                _ => usage(),
            }
        }
        ["compare", "rows", rest @ ..] => exit(compare_rows::command(rest, library())),
        ["compare", rest @ ..] => exit(compare::command(rest)),
        ["store", rest @ ..] => exit(store::command(rest)),
        _ => usage(),
    }
}

/// The proved library, if it is linked.
fn library() -> Option<&'static dyn compare_rows::Library> {
    #[cfg(glow_rows)]
    return Some(&library::Glow);
    #[cfg(not(glow_rows))]
    None
}

fn input() -> Vec<u8> {
    let mut bytes = Vec::new();
    std::io::stdin().read_to_end(&mut bytes).expect("standard input");
    bytes
}

fn print(bytes: &[u8]) {
    // A reader that closes early is no fault of ours.
    let _ = std::io::stdout().write_all(bytes);
}

fn usage() -> ! {
    eprint!("{USAGE}");
    exit(2)
}
