//! The proved programs beside this decoder, on fresh cases.

use crate::desk_text::{Program, Said};
use crate::gen::{self, case_seed};
use crate::{lines, listing, programs, tree_text, watch};
use std::collections::BTreeMap;
use std::io::{Read, Write};
use std::path::{Path, PathBuf};
use std::process::{Command, Stdio};
use std::sync::mpsc;
use std::time::{Duration, Instant};

const USAGE: &str = "usage: reference compare ROOT NAME... [--seed S] [--count N] [--seconds T] [--program PATH] [--write]
NAME is frames, octets, packets, tree, listing, desk, sheet or watch; the program is ROOT/crates/NAME/out/NAME unless --program names it
--write: the program tree is also asked to write
";

/// Requests in one run of `octets`, `packets` or `tree`.
const BATCH: usize = 1_000;
/// Scripts in one run of `desk`.
const SCRIPTS: usize = 100;
/// The longest that one run of a program may take.
const RUN_LIMIT: Duration = Duration::from_secs(20);

/// A pipe holds that much, and more, before anybody reads.
const PIPE: usize = 32_768;

struct Plan {
    seed: u64,
    count: u64,
    until: Instant,
    /// Whether `tree` is also asked to write.
    writes: bool,
}

/// A generated input, its expected output, and what it holds by kind.
struct Case {
    input: Vec<u8>,
    expected: String,
    kinds: Vec<(String, usize)>,
    /// The answers by kind, where the generator knows them.
    answers: Option<Vec<(String, usize)>>,
    /// How many cases it counts for.
    cases: u64,
    /// The command that prints the input.
    again: String,
}

/// Exit code 0: no difference; 1: a difference; 2: bad usage or a program that cannot be started.
pub fn command(words: &[&str]) -> i32 {
    let mut names = Vec::new();
    let mut root = None;
    let mut program = None;
    let (mut seed, mut count, mut seconds) = (1, 1_000, 60);
    let mut writes = tree_text::WRITES;
    let mut words = words.iter();
    while let Some(word) = words.next() {
        let mut number = || words.next().and_then(|word| word.parse::<u64>().ok());
        let given = match *word {
            "--seed" => number().map(|value| seed = value),
            "--count" => number().map(|value| count = value),
            "--seconds" => number().map(|value| seconds = value),
            "--write" => Some(writes = true),
            "--program" => words.next().map(|path| program = Some(PathBuf::from(path))),
            _ if root.is_none() => Some(root = Some(PathBuf::from(word))),
            _ => Some(names.push(*word)),
        };
        if given.is_none() {
            eprint!("{USAGE}");
            return 2;
        }
    }
    let (Some(root), false) = (root, names.is_empty()) else {
        eprint!("{USAGE}");
        return 2;
    };
    if program.is_some() && names.len() > 1 {
        eprintln!("compare: --program goes with one name");
        return 2;
    }
    let mut code = 0;
    for name in names {
        let path = program.clone().unwrap_or_else(|| root.join("crates").join(name).join("out").join(name));
        let plan = Plan { seed, count, until: Instant::now() + Duration::from_secs(seconds), writes };
        code = code.max(one(name, &path, &plan));
    }
    code
}

fn case(name: &str, seed: u64, left: u64, writes: bool) -> Option<Case> {
    let with = |input: Vec<u8>, expected: String, kinds: Vec<(&str, usize)>, cases, size| Case {
        input,
        expected,
        kinds: kinds.into_iter().map(|(kind, count)| (kind.to_string(), count)).collect(),
        answers: None,
        cases,
        again: format!("reference generate {name} {seed} {size}"),
    };
    Some(match name {
        "frames" => {
            let size = 1 + (seed % 16) as usize;
            let (input, kinds) = gen::frames::input(seed, size);
            let expected = programs::frames(&input);
            with(input, expected, gen::frames::KINDS.into_iter().zip(kinds).collect(), 1, size)
        }
        "octets" => {
            let size = BATCH.min(left as usize);
            let (input, kinds) = gen::octets::input(seed, size);
            let expected = programs::octets(&input);
            with(input, expected, gen::octets::KINDS.into_iter().zip(kinds).collect(), size as u64, size)
        }
        "tree" => {
            let size = BATCH.min(left as usize);
            let (input, kinds) = gen::tree::requests::input(seed, size, writes);
            let expected = tree_text::trees(&input, writes);
            let kinds = gen::tree::requests::KINDS.into_iter().zip(kinds).collect();
            let mut case = with(input, expected, kinds, size as u64, size);
            case.again += if writes && !tree_text::WRITES { " --write" } else { "" };
            case
        }
        "packets" => {
            let size = BATCH.min(left as usize);
            let (input, kinds) = gen::packets::input(seed, size);
            let expected = programs::packets(&input);
            with(input, expected, gen::packets::KINDS.into_iter().zip(kinds).collect(), size as u64, size)
        }
        "listing" => {
            let size = 1 + (seed % 12) as usize;
            let (input, kinds) = gen::tree::listing_input(seed, size);
            let expected = listing::listing(&input);
            with(input, expected, gen::tree::KINDS.into_iter().zip(kinds).collect(), 1, size)
        }
        "desk" => {
            let size = SCRIPTS.min(left as usize);
            let script = gen::desk::scripts::input(seed, size);
            let mut case = with(script.text, script.output, vec![("script", size)], size as u64, size);
            case.answers = Some(script.counts.into_iter().collect());
            case
        }
        "sheet" => {
            let (input, kind) = gen::desk::sheets::input(seed);
            let expected = programs::sheets(&input);
            let mut case = with(input, expected, vec![(gen::desk::sheets::KINDS[kind], 1)], 1, 0);
            let number = case.expected.lines().next().unwrap_or_default();
            case.answers = Some(vec![(format!("{number:0>2}"), 1)]);
            case.again = format!("reference generate sheet {seed}");
            case
        }
        "watch" => {
            let size = 1 + (seed % 80) as usize;
            let (input, kinds) = gen::watch::input(seed, size);
            let expected = watch::watch(&input);
            with(input, expected, gen::watch::KINDS.into_iter().zip(kinds).collect(), 1, size)
        }
        _ => return None,
    })
}

fn one(name: &str, path: &Path, plan: &Plan) -> i32 {
    let started = Instant::now();
    let mut done = 0;
    let mut index = 0;
    let mut kinds: BTreeMap<String, usize> = BTreeMap::new();
    let mut answers: BTreeMap<String, usize> = BTreeMap::new();
    let mut code = 0;
    while done < plan.count && Instant::now() < plan.until {
        let Some(case) = case(name, case_seed(plan.seed, index), plan.count - done, plan.writes) else {
            eprint!("{USAGE}");
            return 2;
        };
        index += 1;
        let actual = match run(path, &case.input) {
            Ok(actual) => actual,
            Err(why) => {
                println!("{name}: {}: {why}\nreproduce: {}", path.display(), case.again);
                return 2;
            }
        };
        done += case.cases;
        for (kind, count) in &case.kinds {
            *kinds.entry(kind.clone()).or_default() += count;
        }
        match &case.answers {
            Some(known) => {
                for (answer, count) in known {
                    *answers.entry(answer.clone()).or_default() += count;
                }
            }
            None => {
                for line in case.expected.lines() {
                    *answers.entry(answer_kind(name, line)).or_default() += 1;
                }
            }
        }
        if actual != case.expected.as_bytes() {
            show_difference(name, &case, &actual, plan.writes);
            code = 1;
            break;
        }
    }
    println!(
        "{name}: {done} cases compared, {} in {:.1} s, seed {}",
        if code == 0 { "no difference" } else { "the last one differs" },
        started.elapsed().as_secs_f64(),
        plan.seed
    );
    let list = |counts: &BTreeMap<String, usize>| {
        let words: Vec<String> = counts.iter().map(|(kind, count)| format!("{kind} {count}")).collect();
        words.join(", ")
    };
    println!("  kinds: {}", list(&kinds));
    println!("  answers: {}", list(&answers));
    code
}

/// The answer's number, or a word for it.
fn answer_kind(name: &str, line: &str) -> String {
    let words: Vec<&str> = line.split(' ').collect();
    match (name, words.as_slice()) {
        ("tree", ["0", "elements" | "streams", _]) => format!("{} {}", words[0], words[1]),
        ("tree", ["1" | "46"]) => words[0].to_string(),
        ("tree", ["0", _]) => "0 and what is written".to_string(),
        ("tree", [number, _]) if *number != "bad" => number.to_string(),
        ("tree", [_, _, kind, ..]) => format!("an entry, {kind}"),
        (_, ["bad", "line"]) => "bad line".to_string(),
        (_, ["end", ..]) => "end".to_string(),
        ("watch", [word]) => word.to_string(),
        ("frames", [_, number, ..]) => format!("event {number:0>2}"),
        ("listing", [_, number]) => format!("event {number:0>2}"),
        ("listing", [_, number, tree]) => format!("event {number:0>2} tree {tree}"),
        (_, ["30"]) | (_, ["35"]) | (_, ["46"]) | (_, ["range"]) | (_, ["other"]) => words[0].to_string(),
        ("octets", ["30" | "35", _]) => format!("{} at a place", words[0]),
        _ => "taken".to_string(),
    }
}

/// The whole input, or for requests its line, and both outputs.
fn show_difference(name: &str, case: &Case, actual: &[u8], writes: bool) {
    println!("{name}: difference");
    println!("reproduce: {}", case.again);
    let expected = lines::lines(case.expected.as_bytes());
    let got = lines::lines(actual);
    let at = (0..expected.len().max(got.len())).find(|&at| expected.get(at) != got.get(at)).unwrap_or(expected.len());
    let shown = |line: Option<&&[u8]>| line.map_or("(no line)".to_string(), |line| String::from_utf8_lossy(line).into_owned());
    println!("first differing line of output: {}", at + 1);
    println!("  decoder: {}", shown(expected.get(at)));
    println!("  program: {}", shown(got.get(at)));
    if name == "octets" || name == "packets" {
        println!("  request: {}", shown(lines::lines(&case.input).get(at)));
        return;
    }
    if name == "tree" {
        // Answers have several lines.
        let mut before = 0;
        for request in lines::lines(&case.input) {
            let answer = tree_text::answer(request, writes);
            before += answer.lines().count();
            if before > at {
                println!("  request: {}", String::from_utf8_lossy(request));
                print!("  answer of the decoder: {answer}");
                return;
            }
        }
    }
    if name == "desk" {
        return show_script(&case.input, at);
    }
    println!("--- input");
    println!("{}", String::from_utf8_lossy(&case.input));
    println!("--- decoder");
    print!("{}", case.expected);
    println!("--- program");
    print!("{}", String::from_utf8_lossy(actual));
    println!("---");
}

/// The script up to the line that printed line `at` of the output, from the `open` that its desk comes from, each with what the
/// decoder prints.
fn show_script(input: &[u8], at: usize) {
    let mut program = Program::start();
    let mut before = 0;
    let mut since: Vec<(String, String)> = Vec::new();
    for line in lines::lines(input) {
        let said = program.line(line);
        if matches!(said, Said::Opened(_)) {
            since.clear();
        }
        let text = said.text();
        before += text.lines().count();
        since.push((String::from_utf8_lossy(line).into_owned(), text));
        if before > at {
            break;
        }
    }
    println!("--- script, and after each line what the decoder prints");
    for (line, said) in since {
        print!("{line}\n{}", said.lines().map(|line| format!("  > {line}\n")).collect::<String>());
    }
    println!("---");
}

/// What a program writes for an input.
fn run(path: &Path, input: &[u8]) -> Result<Vec<u8>, String> {
    let mut child = Command::new(path)
        .stdin(Stdio::piped())
        .stdout(Stdio::piped())
        .spawn()
        .map_err(|error| format!("cannot be started: {error}"))?;
    let mut stdin = child.stdin.take().unwrap();
    let mut stdout = child.stdout.take().unwrap();
    // A program that stops at a bad line need not read the rest.
    let writer = if input.len() <= PIPE {
        let _ = stdin.write_all(input);
        drop(stdin);
        None
    } else {
        let input = input.to_vec();
        Some(std::thread::spawn(move || {
            let _ = stdin.write_all(&input);
        }))
    };
    let (send, receive) = mpsc::channel();
    std::thread::spawn(move || {
        let mut output = Vec::new();
        let result = stdout.read_to_end(&mut output).map(|_| output);
        let _ = send.send(result);
    });
    let output = receive.recv_timeout(RUN_LIMIT);
    if output.is_err() {
        let _ = child.kill();
    }
    let status = child.wait().map_err(|error| error.to_string())?;
    let _ = writer.map(|writer| writer.join());
    match output {
        Err(_) => Err(format!("no end after {} s", RUN_LIMIT.as_secs())),
        Ok(Err(error)) => Err(error.to_string()),
        Ok(Ok(_)) if status.code().is_none() => Err(format!("ended by a signal: {status}")),
        Ok(Ok(output)) => Ok(output),
    }
}
