//! Compares the built program with the plain one over random documents, command by command: text and status.
//!
//!     fuzz PROGRAM [--count N | --seconds S] [--seed SEED] [--only NUMBER] [--write] [--tally]
//!
//! A command that the program does not know (status 2) is left out. A difference is printed with its seed and number, and with the smallest
//! document to which it can be cut by lines; the exit status is then 1. `--only` looks at one document, and `--write` writes it. `--tally`
//! only counts what documents there are, by the plain program's answers.
#[path = "../../bench/baseline/bench.rs"]
mod bench;
#[path = "../../bench/baseline/check.rs"]
mod check;
#[path = "../../bench/baseline/config.rs"]
mod config;
#[path = "../../bench/baseline/document.rs"]
mod document;
#[path = "../../bench/baseline/lines.rs"]
mod lines;
mod maker;
mod program;
mod random;
#[path = "../../bench/baseline/run.rs"]
mod run;
#[path = "../../bench/baseline/words.rs"]
mod words;

use program::{Answer, Program};
use std::collections::BTreeMap;
use std::io::Write;
use std::process::ExitCode;
use std::time::{Duration, Instant};

const COMMANDS: [&str; 5] = ["trace", "show", "table", "check", "load"];
const MOST_DIFFERENCES: usize = 5;

type Fault = Box<dyn std::error::Error>;

/// What the plain program answers. A panic of it has no status.
fn plain(command: &str, document: &[u8]) -> Answer {
    let found = std::panic::catch_unwind(|| {
        let mut text = Vec::new();
        let status = bench::serve(&[command], || Ok(document.to_vec()), &mut text);
        Answer { text, status: Some(status) }
    });
    found.unwrap_or_else(|_| Answer { text: b"the plain program panicked\n".to_vec(), status: None })
}

fn differs(program: &mut Program, command: &str, lines: &[&[u8]]) -> Result<bool, Fault> {
    let document = lines.concat();
    program.give(&document)?;
    Ok(program.answer(&[command])? != plain(command, &document))
}

/// The document without all lines that the difference does not need: first large pieces go, then small ones, until none can go.
fn smallest(program: &mut Program, command: &str, document: &[u8]) -> Result<Vec<u8>, Fault> {
    let mut lines: Vec<&[u8]> = document.split_inclusive(|&byte| byte == b'\n').collect();
    let mut size = lines.len().div_ceil(2);
    while size > 0 {
        let mut gone = false;
        let mut from = 0;
        while from < lines.len() {
            let to = (from + size).min(lines.len());
            let rest = [&lines[..from], &lines[to..]].concat();
            if differs(program, command, &rest)? {
                lines = rest;
                gone = true;
            } else {
                from += if size > 8 { size } else { 1 };
            }
        }
        if !gone || size > 8 {
            size = if size > 8 { size.div_ceil(2) } else { size - 1 };
        }
    }
    Ok(lines.concat())
}

fn print(title: &str, text: &[u8]) {
    println!("--- {title}\n{}", String::from_utf8_lossy(text));
}

/// Tells a difference with the smallest document that has it.
fn tell(program: &mut Program, command: &str, seed: u64, number: u64, document: &[u8]) -> Result<(), Fault> {
    println!("DIFFERENCE: {command}, --seed {seed} --only {number}");
    let least = smallest(program, command, document)?;
    program.give(&least)?;
    let answer = program.answer(&[command])?;
    let other = plain(command, &least);
    print("document", &least);
    print(&format!("the program, status {:?}", answer.status), &answer.text);
    print(&format!("the plain program, status {:?}", other.status), &other.text);
    Ok(())
}

#[derive(Default)]
struct Options {
    count: Option<u64>,
    seconds: Option<u64>,
    seed: Option<u64>,
    only: Option<u64>,
    write: bool,
    tally: bool,
}

fn options(words: &[String]) -> Option<Options> {
    let mut options = Options::default();
    let mut words = words.iter();
    while let Some(word) = words.next() {
        let option = match word.as_str() {
            "--write" => {
                options.write = true;
                continue;
            }
            "--tally" => {
                options.tally = true;
                continue;
            }
            "--count" => &mut options.count,
            "--seconds" => &mut options.seconds,
            "--seed" => &mut options.seed,
            "--only" => &mut options.only,
            _ => return None,
        };
        *option = Some(words.next()?.parse().ok()?);
    }
    Some(options)
}

/// What was looked at: documents by status of `trace`, by broken rule and kind of fault, and by status of `check`.
#[derive(Default)]
struct Tally {
    documents: u64,
    runs: u64,
    found: BTreeMap<String, u64>,
}

impl Tally {
    fn note(&mut self, command: &str, answer: &Answer) {
        let status = answer.status.map_or("none".to_string(), |status| status.to_string());
        let text = String::from_utf8_lossy(&answer.text);
        let words: Vec<&str> = text.split_ascii_whitespace().collect();
        let key = match (command, answer.status) {
            ("trace", Some(6)) => format!("trace status  6 form {}", words[3]),
            ("trace", Some(7)) => format!("trace status  7 rule {:>2}", words[1]),
            ("trace", _) => format!("trace status {status:>2}"),
            ("check", Some(0 | 8)) => format!("check status {status:>2} bounds {}", words[words.len() - 3]),
            _ => return,
        };
        *self.found.entry(key).or_default() += 1;
    }

    fn print(&self, seed: u64, took: Duration) {
        for (key, count) in &self.found {
            println!("{count:9}  {key}");
        }
        let seconds = took.as_secs_f64();
        let pace = self.documents as f64 / seconds.max(0.001) * 60.0;
        println!(
            "{} documents of seed {seed}, {} runs of the program, {seconds:.0} s, {pace:.0} documents a minute",
            self.documents, self.runs
        );
    }
}

fn compare(path: &str, options: &Options) -> Result<usize, Fault> {
    let mut program = Program::new(path)?;
    let mut known = Vec::new();
    program.give(b"")?;
    for command in COMMANDS.into_iter().filter(|_| !options.tally) {
        match program.answer(&[command])?.status {
            Some(bench::USAGE) => println!("left out: {command}, which the program does not know"),
            _ => known.push(command),
        }
    }
    if known.is_empty() && !options.tally {
        return Err("the program knows no command".into());
    }
    let seed = options.seed.unwrap_or(1);
    let numbers = match (options.only, options.count) {
        (Some(number), _) => number..number + 1,
        (None, Some(count)) => 0..count,
        (None, None) => 0..u64::MAX,
    };
    let until = Duration::from_secs(options.seconds.unwrap_or(if options.count.is_some() { u64::MAX } else { 60 }));
    let started = Instant::now();
    let mut printed = started;
    let mut tally = Tally::default();
    let mut differences = 0;
    for number in numbers {
        if started.elapsed() >= until || differences >= MOST_DIFFERENCES {
            break;
        }
        if printed.elapsed() >= Duration::from_secs(10) {
            printed = Instant::now();
            eprintln!("{} documents, {differences} with a difference", tally.documents);
        }
        let document = maker::document(seed, number);
        if options.write {
            std::io::stdout().write_all(&document)?;
        }
        program.give(&document)?;
        tally.documents += 1;
        let mut different = Vec::new();
        for command in COMMANDS {
            let other = plain(command, &document);
            tally.note(command, &other);
            if known.contains(&command) {
                tally.runs += 1;
                if program.answer(&[command])? != other {
                    different.push(command);
                }
            }
        }
        for command in &different {
            tell(&mut program, command, seed, number, &document)?;
        }
        differences += usize::from(!different.is_empty());
    }
    tally.print(seed, started.elapsed());
    println!("{differences} documents with a difference");
    Ok(differences)
}

fn main() -> ExitCode {
    let words: Vec<String> = std::env::args().skip(1).collect();
    let Some((path, rest)) = words.split_first() else {
        eprintln!("fuzz PROGRAM [--count N | --seconds S] [--seed SEED] [--only NUMBER] [--write] [--tally]");
        return ExitCode::from(2);
    };
    let Some(options) = options(rest) else {
        eprintln!("fuzz: an option is not known, or its number is missing");
        return ExitCode::from(2);
    };
    std::panic::set_hook(Box::new(|_| {}));
    match compare(path, &options) {
        Ok(0) => ExitCode::SUCCESS,
        Ok(_) => ExitCode::FAILURE,
        Err(fault) => {
            eprintln!("fuzz: {fault}");
            ExitCode::from(2)
        }
    }
}
