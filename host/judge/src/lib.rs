//! The judge: runs a pupil's keeper as a process that speaks the text form of `fixed/README.md`, asks it directed and
//! random streams, and reports the simplest call on which it differs from the proved core, shrunk to a short stream.
//!
//! Whatever the process does, the judge ends: an answer is waited for so long and no longer, and a keeper that ends,
//! hangs or writes nonsense is reported at the call where it did.

mod answer;
mod count;
mod difference;
mod gloss;
mod group;
mod hint;
mod kind;
mod lead;
mod names;
mod options;
mod process;
mod progress;
mod pupil;
mod replay;
mod report;
mod rows;
mod search;
mod settle;
mod shrink;
mod source;
mod stream;
mod trial;
mod value;
mod words;

pub use options::{Asked, Options, USAGE};
pub use pupil::{Break, Broken};
pub use source::{streams, Draw};
pub use stream::{Call, Opening, Stream};
pub use trial::{Fault, Wrong};

use count::count;
use pupil::Pupil;
use std::fs;
use std::io::Write;
use std::time::Duration;

/// A wrong answer.
#[derive(Debug, Clone, PartialEq, Eq)]
pub struct Found {
    /// The stream in which it was met, and its calls up to there.
    pub from: String,
    pub met: usize,
    /// The short stream, whose last call is answered wrongly, and how.
    pub stream: Stream,
    pub fault: Fault,
    /// Whether it is so in a process that has met no other stream.
    pub alone: bool,
    /// Other kinds of wrong answers that were met, in words; those with short streams first.
    pub others: Vec<String>,
    /// The time that shrinking had, if that ended it.
    pub out_of_time: Option<Duration>,
}

/// What came of a run: how much was asked, and the wrong answer to show.
#[derive(Debug, Clone, PartialEq, Eq, Default)]
pub struct Verdict {
    pub streams: u64,
    pub calls: u64,
    pub found: Option<Found>,
}

impl Verdict {
    /// 0: no difference. 1: a wrong answer.
    pub fn status(&self) -> u8 {
        u8::from(self.found.is_some())
    }
}

fn say(out: &mut dyn Write, text: &str) -> Result<(), String> {
    let said = out.write_all(text.as_bytes()).and_then(|()| out.flush());
    said.map_err(|error| format!("the report can't be written: {error}"))
}

/// Judges the keeper that this command starts, and writes the report. An error is a run that could not be done.
pub fn judge(command: &str, options: &Options, out: &mut dyn Write) -> Result<Verdict, String> {
    let mut pupil = Pupil::new(command, options.patience, options.replay.is_some())?;
    let verdict = match &options.replay {
        Some(path) => replay::replay(&mut pupil, path, out)?,
        None => search::search(&mut pupil, options)?,
    };
    let Some(found) = &verdict.found else {
        let (streams, calls) = (
            count(verdict.streams, "stream"),
            count(verdict.calls, "call"),
        );
        say(out, &format!("No difference in {streams}, {calls}.\n"))?;
        return Ok(verdict);
    };
    say(out, &report::found(found))?;
    if let Some(path) = &options.save {
        fs::write(path, report::saved(found))
            .map_err(|error| format!("{}: {error}", path.display()))?;
    }
    Ok(verdict)
}

/// The exit status, or what is wrong.
fn asked(program: &str, words: &[String]) -> Result<u8, Vec<String>> {
    let out = &mut std::io::stdout();
    let asked = Options::read(words).map_err(|mut faults| {
        if let Some(last) = faults.last_mut() {
            *last += &format!("; `{program} --help` tells what there is");
        }
        faults
    })?;
    let done = match asked {
        Asked::Help => say(out, &format!("usage: {program} {USAGE}\n")).map(|()| 0),
        Asked::Version => {
            say(out, &format!("{program} {}\n", env!("CARGO_PKG_VERSION"))).map(|()| 0)
        }
        Asked::Judge(command, options) => {
            group::end_with_the_judge();
            judge(&command, &options, out).map(|verdict| verdict.status())
        }
    };
    done.map_err(|fault| vec![fault])
}

/// A program's whole run: the words after its name, the report on standard output, each fault of the run as a line on
/// standard error. Gives the exit status.
pub fn run(program: &str, words: &[String]) -> u8 {
    asked(program, words).unwrap_or_else(|faults| {
        for fault in faults {
            eprintln!("{program}: {fault}");
        }
        2
    })
}
