//! Sending calls to the program and comparing its answers: many ahead, or one after the other.

use std::io::{self, BufReader, Read, Write};
use std::mem;
use std::path::Path;
use std::process::{ChildStdin, ChildStdout};
use std::sync::atomic::{AtomicU64, Ordering};
use std::sync::mpsc::{sync_channel, Receiver, SyncSender};
use std::sync::Arc;
use std::thread::{self, JoinHandle};

use ultra_model::generator::inputs::Difference;

use crate::program::{is_cut, other_answer, Program};
use crate::telling;

/// Calls are sent when their frames, or the answers expected, are as long as this.
const BATCH: usize = 1 << 18;
/// How many batches may wait for their answers.
const AHEAD: usize = 4;

/// Calls and the answers that the model gave.
#[derive(Default)]
struct Batch {
    frames: Vec<u8>,
    expected: Vec<u8>,
    /// For each call the input's index, and where its frame and its answer end.
    calls: Vec<(u64, usize, usize)>,
}

/// A difference, and the index of its input.
pub struct Found {
    pub index: u64,
    pub what: String,
    /// Whether the answer breaks off, so that the program's end is of interest.
    pub cut: bool,
}

/// Calls sent ahead. One thread writes; another one reads the answers, so that neither the
/// program nor the writer waits for the other for ever: whatever batch the reader is given is
/// written whole before the next one is handed over.
pub struct Pipe {
    program: Program,
    stdin: ChildStdin,
    batch: Batch,
    batches: SyncSender<Arc<Batch>>,
    reader: JoinHandle<Option<Found>>,
}

impl Pipe {
    fn start(path: &Path) -> io::Result<Pipe> {
        let (program, stdin, stdout) = Program::start(path)?;
        let (batches, waiting) = sync_channel(AHEAD);
        let answers = program.answers();
        Ok(Pipe {
            program,
            stdin,
            batch: Batch::default(),
            batches,
            reader: thread::spawn(move || compare(stdout, &waiting, &answers)),
        })
    }

    fn exchange(&mut self, index: u64, frame: &[u8], expected: &[u8]) -> Result<(), Difference> {
        let Batch {
            frames,
            expected: answers,
            calls,
        } = &mut self.batch;
        frames.extend(frame);
        answers.extend(expected);
        calls.push((index, frames.len(), answers.len()));
        if frames.len().max(answers.len()) < BATCH {
            return Ok(());
        }
        self.send().map_err(|error| Difference(error.to_string()))
    }

    fn send(&mut self) -> io::Result<()> {
        let batch = Arc::new(mem::take(&mut self.batch));
        let gone = |_| io::Error::other("the reader has ended");
        self.batches.send(batch.clone()).map_err(gone)?;
        self.stdin.write_all(&batch.frames)
    }

    /// The rest of the calls, and the program's end.
    fn finish(mut self, index: u64) -> Option<Found> {
        // Where the program or the reader is gone, the reader has found out why.
        let _ = self.send();
        drop((self.stdin, self.batches));
        let found = self.reader.join().expect("the reader does not panic");
        let end = || telling::bad_end(self.program.ended());
        match found {
            Some(mut found) if found.cut => {
                found.what += &end().map_or(String::new(), |end| format!("\n  {end}"));
                Some(found)
            }
            Some(found) => Some(found),
            None => end().map(|what| Found {
                index,
                what,
                cut: false,
            }),
        }
    }
}

/// Reads the answers of every batch; the first that is another one than expected.
fn compare(
    stdout: ChildStdout,
    batches: &Receiver<Arc<Batch>>,
    answers: &AtomicU64,
) -> Option<Found> {
    let mut stdout = BufReader::with_capacity(BATCH, stdout);
    let mut last = 0;
    for batch in batches {
        let (mut frame_start, mut start) = (0, 0);
        for (index, frame_end, end) in &batch.calls {
            let expected = &batch.expected[start..*end];
            if let Some(answer) = other_answer(&mut stdout, expected) {
                let frame = &batch.frames[frame_start..*frame_end];
                let what = telling::difference(frame, &answer, expected);
                let cut = is_cut(&answer);
                return Some(Found {
                    index: *index,
                    what,
                    cut,
                });
            }
            answers.fetch_add(1, Ordering::Relaxed);
            (frame_start, start, last) = (*frame_end, *end, *index);
        }
    }
    let mut rest = Vec::new();
    let _ = stdout.take(BATCH as u64).read_to_end(&mut rest);
    (!rest.is_empty()).then(|| Found {
        index: last,
        what: format!("{} bytes come after the last answer", rest.len()),
        cut: false,
    })
}

/// One call after the other, every one shown, and all frames kept.
pub struct Shown {
    /// Ended when this goes.
    program: Program,
    stdin: ChildStdin,
    stdout: BufReader<ChildStdout>,
    pub frames: Vec<u8>,
}

impl Shown {
    fn exchange(&mut self, frame: &[u8], expected: &[u8]) -> Result<(), Difference> {
        eprintln!("{}", telling::call(frame));
        self.frames.extend(frame);
        let written = self
            .stdin
            .write_all(frame)
            .and_then(|()| self.stdin.flush());
        let answer = other_answer(&mut self.stdout, expected);
        self.program.answers().fetch_add(1, Ordering::Relaxed);
        match (written, answer) {
            (_, Some(answer)) => Err(Difference(telling::difference(frame, &answer, expected))),
            (Err(error), None) => Err(Difference(error.to_string())),
            (Ok(()), None) => {
                eprintln!("  both: {}", telling::answer(expected));
                Ok(())
            }
        }
    }
}

/// How calls get to the program.
pub enum Link {
    Ahead(Box<Pipe>),
    Shown(Box<Shown>),
}

impl Link {
    pub fn ahead(path: &Path) -> io::Result<Link> {
        Pipe::start(path).map(|pipe| Link::Ahead(Box::new(pipe)))
    }

    pub fn shown(path: &Path) -> io::Result<Link> {
        let (program, stdin, stdout) = Program::start(path)?;
        Ok(Link::Shown(Box::new(Shown {
            program,
            stdin,
            stdout: BufReader::new(stdout),
            frames: Vec::new(),
        })))
    }

    /// Sends the call of an input. Where calls go ahead, a difference is told by
    /// [`Link::finish`], and an error only says that there is nothing more to send.
    pub fn exchange(
        &mut self,
        index: u64,
        frame: &[u8],
        expected: &[u8],
    ) -> Result<(), Difference> {
        match self {
            Link::Ahead(pipe) => pipe.exchange(index, frame, expected),
            Link::Shown(shown) => shown.exchange(frame, expected),
        }
    }

    /// What was found, after all calls up to those of the input of this index.
    pub fn finish(self, index: u64) -> Option<Found> {
        match self {
            Link::Ahead(pipe) => pipe.finish(index),
            Link::Shown(_) => None,
        }
    }
}
