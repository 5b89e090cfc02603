//! The bench once more, written from its description alone: plain Rust over std, as lean as may be, and without a proof. It is what the
//! proved program is measured against, and the second opinion that random documents are compared with.
mod bench;
mod check;
mod config;
mod document;
mod lines;
mod run;
mod words;

use std::fs::File;
use std::io::Read;
use std::os::fd::AsFd;

const LIMIT: u64 = 1 << 20;

fn read_input() -> Result<Vec<u8>, i32> {
    let mut bytes = Vec::with_capacity(1 << 16);
    let input = std::io::stdin().as_fd().try_clone_to_owned().map_err(|_| 3)?;
    File::from(input).take(LIMIT + 1).read_to_end(&mut bytes).map_err(|_| 3)?;
    if bytes.len() as u64 > LIMIT {
        Err(5)
    } else {
        Ok(bytes)
    }
}

fn main() {
    let words: Vec<_> = std::env::args_os().skip(1).collect();
    let status = match words.iter().map(|word| word.to_str()).collect::<Option<Vec<_>>>() {
        None => 13,
        Some(words) => match std::io::stdout().as_fd().try_clone_to_owned() {
            Ok(output) => bench::serve(&words, read_input, &mut File::from(output)),
            Err(_) => 4,
        },
    };
    std::process::exit(status);
}
