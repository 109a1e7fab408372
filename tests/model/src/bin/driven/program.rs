//! The driver program as a process, and its answers as they come.

use std::io::{self, BufRead, Read};
use std::path::Path;
use std::process::{Child, ChildStdin, ChildStdout, Command, ExitStatus, Stdio};
use std::sync::atomic::{AtomicBool, AtomicU64, Ordering};
use std::sync::{Arc, Mutex};
use std::thread;
use std::time::{Duration, Instant};

use ultra_model::driving::frame::{Head, HEAD_LENGTH};

/// A program that answers nothing for longer than this is taken to have no end.
const PATIENCE: Duration = Duration::from_secs(60);
const INTERVAL: Duration = Duration::from_millis(5);
/// No answer is as long as this; of a longer one the rest is not read.
const MOST_ANSWER: u64 = 1 << 22;

/// A process, ended where it does not go on.
pub struct Program {
    child: Arc<Mutex<Child>>,
    answers: Arc<AtomicU64>,
    over: Arc<AtomicBool>,
}

impl Program {
    pub fn start(path: &Path) -> io::Result<(Program, ChildStdin, ChildStdout)> {
        let mut child = Command::new(path)
            .stdin(Stdio::piped())
            .stdout(Stdio::piped())
            .spawn()?;
        let pipes = child.stdin.take().zip(child.stdout.take());
        let (stdin, stdout) = pipes.ok_or_else(|| io::Error::other("the program has no pipes"))?;
        let program = Program {
            child: Arc::new(Mutex::new(child)),
            answers: Arc::default(),
            over: Arc::default(),
        };
        program.watch();
        Ok((program, stdin, stdout))
    }

    /// What counts the answers read: as long as it grows, the program goes on.
    pub fn answers(&self) -> Arc<AtomicU64> {
        self.answers.clone()
    }

    fn watch(&self) {
        let (child, answers) = (self.child.clone(), self.answers.clone());
        let over = self.over.clone();
        thread::spawn(move || {
            let mut seen = (0, Instant::now());
            while !over.load(Ordering::Relaxed) {
                let now = answers.load(Ordering::Relaxed);
                if now != seen.0 {
                    seen = (now, Instant::now());
                } else if seen.1.elapsed() > PATIENCE {
                    eprintln!("NO END: the program has not answered for {PATIENCE:?}; ending it");
                    let _ = child.lock().unwrap().kill();
                    return;
                }
                thread::sleep(INTERVAL);
            }
        });
    }

    /// Waits for its end. Its input is to be closed by then, or its end be due.
    pub fn ended(self) -> io::Result<ExitStatus> {
        loop {
            if let Some(status) = self.child.lock().unwrap().try_wait()? {
                return Ok(status);
            }
            thread::sleep(INTERVAL);
        }
    }
}

impl Drop for Program {
    fn drop(&mut self) {
        self.over.store(true, Ordering::Relaxed);
        let mut child = self.child.lock().unwrap();
        let _ = child.kill();
        let _ = child.wait();
    }
}

/// Whether an answer ends before it says that it does.
pub fn is_cut(answer: &[u8]) -> bool {
    match answer.first_chunk() {
        Some(head) => Head::of(head).frame_length() > answer.len() as u64,
        None => true,
    }
}

/// Reads an answer; none where it is the one expected, otherwise its bytes, as far as there are
/// any.
pub fn other_answer(from: &mut impl BufRead, expected: &[u8]) -> Option<Vec<u8>> {
    let mut at = 0;
    while at < expected.len() {
        let ready = from.fill_buf().unwrap_or_default();
        let length = ready.len().min(expected.len() - at);
        if length == 0 || ready[..length] != expected[at..at + length] {
            return Some(whole_answer(from, &expected[..at]));
        }
        from.consume(length);
        at += length;
    }
    None
}

/// What was read, and as much more as makes a frame.
fn whole_answer(from: &mut impl BufRead, read: &[u8]) -> Vec<u8> {
    let mut answer = read.to_vec();
    let missing = HEAD_LENGTH.saturating_sub(answer.len()) as u64;
    let _ = from.take(missing).read_to_end(&mut answer);
    if let Some(head) = answer.first_chunk() {
        let missing = Head::of(head).frame_length() - answer.len() as u64;
        let _ = from.take(missing.min(MOST_ANSWER)).read_to_end(&mut answer);
    }
    answer
}
