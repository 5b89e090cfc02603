//! The program that is looked at: one process for each document and command.
use std::fs::{File, OpenOptions};
use std::io::{Read, Seek, SeekFrom, Write};
use std::process::{Child, Command, Stdio};
use std::sync::{Arc, Mutex, PoisonError};
use std::time::{Duration, Instant};

const LONGEST: Duration = Duration::from_secs(60);

/// A text and a status. No status is that of a program that was ended by a signal, or because it took too long.
#[derive(PartialEq, Eq, Clone)]
pub struct Answer {
    pub text: Vec<u8>,
    pub status: Option<i32>,
}

type Running = Arc<Mutex<Option<(Child, Instant)>>>;

pub struct Program {
    path: String,
    input: File,
    input_path: std::path::PathBuf,
    running: Running,
}

/// Ends the child that runs for too long.
fn watch(running: &Running) {
    loop {
        std::thread::sleep(Duration::from_secs(1));
        let mut running = running.lock().unwrap_or_else(PoisonError::into_inner);
        if let Some((child, since)) = running.as_mut() {
            if since.elapsed() > LONGEST {
                let _ = child.kill();
            }
        }
    }
}

impl Program {
    pub fn new(path: &str) -> std::io::Result<Program> {
        let input_path = std::env::temp_dir().join(format!("osektime_fuzz_{}", std::process::id()));
        let input = OpenOptions::new().create(true).truncate(true).read(true).write(true).open(&input_path)?;
        let running: Running = Arc::default();
        let watched = Arc::clone(&running);
        std::thread::spawn(move || watch(&watched));
        Ok(Program { path: path.to_string(), input, input_path, running })
    }

    /// The document that the next answers are about.
    pub fn give(&mut self, document: &[u8]) -> std::io::Result<()> {
        self.input.set_len(0)?;
        self.input.seek(SeekFrom::Start(0))?;
        self.input.write_all(document)
    }

    /// What it answers to the words. What it says on standard error counts as text.
    pub fn answer(&self, words: &[&str]) -> std::io::Result<Answer> {
        let (mut reader, writer) = std::io::pipe()?;
        let input = File::open(&self.input_path)?;
        let child =
            Command::new(&self.path).args(words).stdin(input).stderr(writer.try_clone()?).stdout(Stdio::from(writer)).spawn()?;
        *self.running.lock().unwrap_or_else(PoisonError::into_inner) = Some((child, Instant::now()));
        let mut text = Vec::new();
        reader.read_to_end(&mut text)?;
        let mut running = self.running.lock().unwrap_or_else(PoisonError::into_inner);
        let status = match running.take() {
            Some((mut child, _)) => child.wait()?.code(),
            None => None,
        };
        Ok(Answer { text, status })
    }
}

impl Drop for Program {
    fn drop(&mut self) {
        let _ = std::fs::remove_file(&self.input_path);
    }
}
