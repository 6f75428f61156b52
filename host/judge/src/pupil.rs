//! A pupil's keeper: asked call by call, started anew when it broke off.

use crate::answer::{Answer, Reading, Unexpected};
use crate::process::{Process, Silence, LONGEST};
use crate::words::words;
use keeper_streams::text::Line;
use std::time::{Duration, Instant};

/// How a keeper broke off.
#[derive(Debug, Clone, PartialEq, Eq)]
pub enum Break {
    Silence(Silence, Duration),
    Unexpected(Unexpected),
}

impl Break {
    /// One sentence or two, after the word `It`.
    pub fn words(&self) -> String {
        match self {
            Break::Silence(Silence::Waiting, patience) => format!(
                "gave no whole answer within {} ms (--patience). Is each answer flushed?",
                patience.as_millis()
            ),
            Break::Silence(Silence::Ended(status), _) => format!("ended ({status})."),
            Break::Silence(Silence::Closed, _) => "closed its standard output.".to_string(),
            Break::Silence(Silence::Endless(start), _) => {
                format!("wrote a line of more than {LONGEST} bytes: {start}..")
            }
            Break::Unexpected(Unexpected { line, expected }) => format!(
                "wrote `{}` where {} has to stand.",
                shortened(line),
                expected.words()
            ),
        }
    }

    pub fn is_waiting(&self) -> bool {
        matches!(self, Break::Silence(Silence::Waiting, _))
    }
}

/// A line for a report.
pub fn shortened(line: &str) -> String {
    const MOST: usize = 160;
    let length = line.chars().count();
    if length <= MOST {
        return line.to_string();
    }
    let start: String = line.chars().take(MOST).collect();
    format!("{start}.. ({length} characters)")
}

/// A break, and the last lines of the keeper's standard error.
#[derive(Debug, Clone, PartialEq, Eq)]
pub struct Broken {
    pub how: Break,
    pub errors: Vec<String>,
}

/// A keeper in a hurry is given so many times its slowest answer, and this at least.
const TIMES: u32 = 10;
const LEAST: Duration = Duration::from_millis(500);

pub struct Pupil {
    command: Vec<String>,
    patience: Duration,
    slowest: Duration,
    hurried: bool,
    /// Its standard error is shown as it comes.
    shown: bool,
    running: Option<Process>,
    /// Calls asked so far.
    pub calls: u64,
}

impl Pupil {
    /// Nothing is started yet.
    pub fn new(command: &str, patience: Duration, shown: bool) -> Result<Self, String> {
        Ok(Self {
            command: words(command)?,
            patience,
            slowest: Duration::ZERO,
            hurried: false,
            shown,
            running: None,
            calls: 0,
        })
    }

    /// Whether an answer is waited for less long, by what the keeper took so far. For tries only: what is reported is
    /// played again with the whole patience.
    pub fn hurry(&mut self, hurried: bool) {
        self.hurried = hurried;
    }

    fn wait(&self) -> Duration {
        if self.hurried {
            self.patience.min(LEAST.max(self.slowest * TIMES))
        } else {
            self.patience
        }
    }

    /// The next stream meets a new process.
    pub fn stop(&mut self) {
        self.running = None;
    }

    /// A stream begins.
    pub fn begin(&mut self, name: &str) -> Result<(), String> {
        let process = match self.running.take() {
            Some(process) => process,
            None => Process::start(&self.command, self.shown)?,
        };
        process.say(Line::Stream(name.to_string()).write());
        self.running = Some(process);
        Ok(())
    }

    /// One call and its answer. After a break the process is gone.
    pub fn ask(&mut self, call: &Line) -> Result<Answer, Broken> {
        self.calls += 1;
        let Some(mut process) = self.running.take() else {
            let gone = Silence::Ended("not running".to_string());
            return Err(Broken {
                how: Break::Silence(gone, self.patience),
                errors: Vec::new(),
            });
        };
        let start = Instant::now();
        process.say(call.write());
        match self.answer(&mut process, call, start) {
            Ok(answer) => {
                self.slowest = self.slowest.max(start.elapsed());
                self.running = Some(process);
                Ok(answer)
            }
            Err(how) => Err(Broken {
                how,
                errors: process.end(),
            }),
        }
    }

    fn answer(&self, process: &mut Process, call: &Line, start: Instant) -> Result<Answer, Break> {
        let patience = self.wait();
        let deadline = start + patience;
        let mut reading = Reading::new(call);
        while !reading.is_whole() {
            let line = process
                .hear(deadline)
                .map_err(|silence| Break::Silence(silence, patience))?;
            reading.line(line).map_err(Break::Unexpected)?;
        }
        Ok(reading.whole())
    }
}
