//! The commands: words and a document in, a text and a status out.
use crate::check;
use crate::config::{self, Config};
use crate::document;
use crate::lines::Lines;
use crate::run::{self, End, Report};
use crate::words;
use std::io::Write;

pub const USAGE: i32 = 2;
const WRITE_FAULT: i32 = 4;

fn status_of(report: &Report) -> i32 {
    match report.end {
        End::LastRound => 0,
        End::Missed(_) => 9,
        End::Shutdown => 10,
    }
}

/// The document of `bulk`.
fn bulk_document(number: u64) -> Vec<u8> {
    let n = 2 + number % 31;
    let length = 20 * n;
    let mut text = format!("osektime 1\nround {length}\nmode m\n");
    for i in 0..n {
        text += &format!("task T{i} 16\nwork 15\nend\n");
    }
    text += "isr K 1 32\nwork 2\nend\n";
    for i in 0..n {
        text += &format!("at {} m activate T{i} {length} stringent\n", 10 * i);
    }
    text += "at 5 m enable K\nstart m\nrounds 10000\n";
    for r in 0..10_000 {
        text += &format!("arrive K {}\n", r * length + 5);
    }
    text.into_bytes()
}

/// The configuration of an accepted document, or the refusal's line and status.
fn accepted(bytes: &[u8]) -> Result<Config, (String, i32)> {
    let document = document::read(bytes, None).map_err(|fault| (format!("form line {} {}\n", fault.line, fault.kind), 6))?;
    config::accept(document).map_err(|broken| (format!("rule {} line {}\n", broken.rule, broken.line), 7))
}

fn show(bytes: &[u8]) -> (Vec<u8>, i32) {
    let mut text = Vec::with_capacity(bytes.len() + 1);
    match document::read(bytes, Some(&mut text)) {
        Err(fault) => (format!("form line {} {}\n", fault.line, fault.kind).into_bytes(), 6),
        Ok(_) => (text, 0),
    }
}

fn load(config: &Config) -> (Vec<u8>, i32) {
    let mut nothing = std::io::sink();
    let mut lines = Lines::new(&mut nothing);
    let report = run::run::<false>(config, &mut lines);
    (run::summary(config, &report).into_bytes(), status_of(&report))
}

fn answer(command: &str, bytes: Vec<u8>, output: &mut dyn Write) -> (Vec<u8>, i32) {
    if command == "show" {
        return show(&bytes);
    }
    let config = match accepted(&bytes) {
        Err((line, status)) => return (line.into_bytes(), status),
        Ok(config) => config,
    };
    drop(bytes);
    let mut text = Vec::new();
    let status = match command {
        "trace" => {
            let mut lines = Lines::new(output);
            let report = run::run::<true>(&config, &mut lines);
            if lines.finish() {
                status_of(&report)
            } else {
                WRITE_FAULT
            }
        }
        "check" => match check::check(&config, &mut text) {
            Ok(true) => 0,
            _ => 8,
        },
        "table" => {
            let _ = check::table(&config, &mut text);
            0
        }
        _ => return load(&config),
    };
    (text, status)
}

/// Does what the words say and gives the status. Input is read only for a command that reads; its fault is the status of its own.
pub fn serve(words: &[&str], input: impl FnOnce() -> Result<Vec<u8>, i32>, output: &mut dyn Write) -> i32 {
    let (text, status) = match words {
        ["bulk", number] => match words::number(number.as_bytes()) {
            Some(number) if number < 1 << 32 => answer("load", bulk_document(number), output),
            _ => return USAGE,
        },
        [command @ ("trace" | "check" | "table" | "show" | "load")] => match input() {
            Ok(bytes) => answer(command, bytes, output),
            Err(status) => return status,
        },
        _ => return USAGE,
    };
    if output.write_all(&text).is_ok() {
        status
    } else {
        WRITE_FAULT
    }
}
