//! A pupil's process and its three pipes. Threads write and read, so that a keeper that neither reads nor writes can't
//! hold the judge up; none of them is waited for.

use crate::group::{self, Group};
use std::collections::VecDeque;
use std::io::{BufRead, BufReader, Read, Write};
use std::process::{Child, Command, Stdio};
use std::sync::mpsc::{channel, sync_channel, Receiver, RecvTimeoutError, Sender};
use std::sync::{Arc, Mutex};
use std::thread::{sleep, spawn};
use std::time::{Duration, Instant};

/// The longest line that an answer can need: 1,024 pending records, with room to spare.
pub const LONGEST: usize = 1 << 18;

/// Lines of standard error that are kept, and characters of one.
pub const KEPT: usize = 12;
const WIDTH: usize = 200;

/// Lines read ahead.
const AHEAD: usize = 64;

/// How long a process that closed its output may take to end, and its last words to arrive.
const GRACE: Duration = Duration::from_millis(500);

/// Why no line came.
#[derive(Debug, Clone, PartialEq, Eq)]
pub enum Silence {
    /// Nothing in time.
    Waiting,
    /// The process has ended, as the system says.
    Ended(String),
    /// It runs, but has closed its standard output.
    Closed,
    /// A line without an end; its beginning.
    Endless(String),
}

enum Heard {
    Line(String),
    Endless(String),
}

#[derive(Default)]
struct Errors {
    lines: VecDeque<String>,
    ended: bool,
}

pub struct Process {
    child: Child,
    /// None once it is ended.
    group: Option<Group>,
    say: Option<Sender<String>>,
    hear: Receiver<Heard>,
    errors: Arc<Mutex<Errors>>,
}

/// Text without what would disturb a terminal; in the form no such letter stands.
fn printable(bytes: &[u8]) -> String {
    let letter = |letter: char| {
        if letter.is_control() {
            char::REPLACEMENT_CHARACTER
        } else {
            letter
        }
    };
    let text = String::from_utf8_lossy(bytes);
    text.trim_end().chars().map(letter).collect()
}

/// Hands each line on, until there are no more or nobody wants them.
fn each_line(pipe: impl Read, mut wanted: impl FnMut(Heard) -> bool) {
    let mut reader = BufReader::new(pipe);
    loop {
        let mut bytes = Vec::new();
        let mut part = reader.by_ref().take(LONGEST as u64);
        let read = part.read_until(b'\n', &mut bytes);
        let text = printable(&bytes);
        let heard = match read {
            Ok(0) | Err(_) => return,
            Ok(LONGEST) if bytes.last() != Some(&b'\n') => {
                Heard::Endless(text.chars().take(60).collect())
            }
            Ok(_) => Heard::Line(text),
        };
        if !wanted(heard) {
            return;
        }
    }
}

fn keep_errors(pipe: impl Read, errors: &Mutex<Errors>) {
    each_line(pipe, |heard| {
        let (Heard::Line(line) | Heard::Endless(line)) = heard;
        errors.lock().is_ok_and(|mut errors| {
            if errors.lines.len() == KEPT {
                errors.lines.pop_front();
            }
            let cut = if line.chars().count() > WIDTH {
                ".."
            } else {
                ""
            };
            let start: String = line.chars().take(WIDTH).collect();
            errors.lines.push_back(start + cut);
            true
        })
    });
    if let Ok(mut errors) = errors.lock() {
        errors.ended = true;
    }
}

impl Process {
    /// Starts it; with `shown` its standard error goes where the judge's goes.
    pub fn start(words: &[String], shown: bool) -> Result<Self, String> {
        let (program, arguments) = words.split_first().ok_or("the command is empty")?;
        let mut child = group::lead(&mut Command::new(program))
            .args(arguments)
            .stdin(Stdio::piped())
            .stdout(Stdio::piped())
            .stderr(if shown {
                Stdio::inherit()
            } else {
                Stdio::piped()
            })
            .spawn()
            .map_err(|error| format!("{program} does not start: {error}"))?;
        let group = Some(Group::of(&child));
        let (say, said) = channel::<String>();
        let (heard, hear) = sync_channel(AHEAD);
        let errors = Arc::new(Mutex::new(Errors::default()));
        if let Some(mut pipe) = child.stdin.take() {
            spawn(move || {
                for text in said {
                    // It has stopped reading: what it wrote, or its end, is found on the other pipe.
                    if pipe
                        .write_all(text.as_bytes())
                        .and_then(|()| pipe.flush())
                        .is_err()
                    {
                        return;
                    }
                }
            });
        }
        if let Some(pipe) = child.stdout.take() {
            spawn(move || each_line(pipe, |line| heard.send(line).is_ok()));
        }
        if let Some(pipe) = child.stderr.take() {
            let errors = Arc::clone(&errors);
            spawn(move || keep_errors(pipe, &errors));
        } else if let Ok(mut errors) = errors.lock() {
            errors.ended = true;
        }
        Ok(Self {
            child,
            group,
            say: Some(say),
            hear,
            errors,
        })
    }

    pub fn say(&self, line: String) {
        if let Some(say) = &self.say {
            // A process that has ended is found out when its answer is read.
            let _ = say.send(line + "\n");
        }
    }

    /// The next line before the deadline, without what ends it.
    pub fn hear(&mut self, deadline: Instant) -> Result<String, Silence> {
        let left = deadline.saturating_duration_since(Instant::now());
        // Lines that lie ready would be had after the deadline too, without an end.
        if left.is_zero() {
            return Err(Silence::Waiting);
        }
        match self.hear.recv_timeout(left) {
            Ok(Heard::Line(line)) => Ok(line),
            Ok(Heard::Endless(start)) => Err(Silence::Endless(start)),
            Err(RecvTimeoutError::Timeout) => Err(Silence::Waiting),
            Err(RecvTimeoutError::Disconnected) => Err(self.gone()),
        }
    }

    fn gone(&mut self) -> Silence {
        let ended = within_grace(|| self.child.try_wait().ok().flatten());
        ended.map_or(Silence::Closed, |status| Silence::Ended(status.to_string()))
    }

    /// Ends it and gives the last lines of its standard error.
    pub fn end(mut self) -> Vec<String> {
        self.kill();
        let lines = |errors: &Mutex<Errors>| {
            let errors = errors.lock().ok()?;
            errors.ended.then(|| errors.lines.iter().cloned().collect())
        };
        // A process that left the group may hold the pipe open: then what has come so far is all.
        within_grace(|| lines(&self.errors)).unwrap_or_else(|| {
            let errors = self.errors.lock();
            errors.map_or_else(
                |_| Vec::new(),
                |errors| errors.lines.iter().cloned().collect(),
            )
        })
    }

    fn kill(&mut self) {
        self.say = None;
        // Also where the first process has ended: it may have left others behind.
        if let Some(group) = self.group.take() {
            group.end();
        }
        // Both fail only for a process that has ended.
        let _ = self.child.kill();
        let _ = self.child.wait();
    }
}

impl Drop for Process {
    fn drop(&mut self) {
        self.kill();
    }
}

/// Asks until there is an answer or the grace is over.
fn within_grace<T>(mut ask: impl FnMut() -> Option<T>) -> Option<T> {
    let start = Instant::now();
    loop {
        let answer = ask();
        if answer.is_some() || start.elapsed() > GRACE {
            return answer;
        }
        sleep(Duration::from_millis(2));
    }
}
