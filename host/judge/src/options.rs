//! The words of the command line.

use std::path::PathBuf;
use std::time::Duration;

pub const USAGE: &str = "COMMAND [OPTIONS]
  COMMAND          starts a keeper that speaks the text form; words in quotes are one
  --streams N      random streams after the directed ones (500)
  --seed S         of the first random stream; the next ones count on (1)
  --steps N        steps in a random stream, at most (200)
  --patience MS    wait so long for an answer (5000)
  --go-on S        go on so many seconds after the first wrong answer, for a simpler one (5)
  --shrink S       make its stream short for so many seconds, at most (60)
  --without-ask    ask no questions, only openings and steps
  --save FILE      write the shrunk stream there
  --replay FILE    play the streams of this file instead, - for standard input; standard error is passed through
  --progress       a progress line on standard error, also where that is no terminal
  --help           this text
  --version        the version
status: 0 no difference, 1 a wrong answer was found, 2 the run could not be done";

/// How a run is done.
#[derive(Debug, Clone, PartialEq, Eq)]
pub struct Options {
    pub streams: u64,
    pub seed: u64,
    pub steps: usize,
    pub patience: Duration,
    /// How long the search goes on after the first wrong answer.
    pub go_on: Duration,
    /// How long shrinking may take.
    pub shrink: Duration,
    pub questions: bool,
    pub replay: Option<PathBuf>,
    pub save: Option<PathBuf>,
    pub progress: bool,
}

impl Default for Options {
    fn default() -> Self {
        Self {
            streams: 500,
            seed: 1,
            steps: 200,
            patience: Duration::from_secs(5),
            go_on: Duration::from_secs(5),
            shrink: Duration::from_secs(60),
            questions: true,
            replay: None,
            save: None,
            progress: false,
        }
    }
}

/// What the command line asks for.
#[derive(Debug, Clone, PartialEq, Eq)]
pub enum Asked {
    Help,
    Version,
    /// A keeper's command, and how the run is done.
    Judge(String, Options),
}

/// A number within these bounds, which a fault names.
fn number(option: &str, word: &str, least: u64, most: u64) -> Result<u64, String> {
    let number = word.replace(['_', ','], "").parse();
    let fits = number.ok().filter(|number| (least..=most).contains(number));
    fits.ok_or_else(|| format!("{option} {word}: a number from {least} to {most} was expected"))
}

/// The most seconds or milliseconds that are waited: a year of seconds.
const LONGEST: u64 = 31_536_000;

impl Options {
    /// Sets an option; the words after it stand for its value.
    fn set<'w>(
        &mut self,
        option: &str,
        mut words: impl Iterator<Item = &'w String>,
    ) -> Result<(), String> {
        let mut value = || words.next().ok_or(format!("{option} needs a value"));
        match option {
            "--streams" => self.streams = number(option, value()?, 0, u64::MAX >> 1)?,
            "--seed" => self.seed = number(option, value()?, 0, u64::MAX)?,
            "--steps" => {
                self.steps = number(option, value()?, 0, u64::from(u32::MAX))? as usize;
            }
            "--patience" => {
                self.patience = Duration::from_millis(number(option, value()?, 1, LONGEST)?);
            }
            "--go-on" => {
                self.go_on = Duration::from_secs(number(option, value()?, 0, LONGEST)?);
            }
            "--shrink" => {
                self.shrink = Duration::from_secs(number(option, value()?, 0, LONGEST)?);
            }
            "--without-ask" => self.questions = false,
            "--replay" => self.replay = Some(PathBuf::from(value()?)),
            "--save" => match value()?.as_str() {
                "-" => return Err("--save -: a file's name was expected".to_string()),
                name => self.save = Some(PathBuf::from(name)),
            },
            "--progress" => self.progress = true,
            _ => return Err(format!("there is no option {option}")),
        }
        Ok(())
    }

    /// The command and the options, in any order; or all that is wrong with the words.
    pub fn read(words: &[String]) -> Result<Asked, Vec<String>> {
        let mut options = Self::default();
        let mut command = None;
        let mut faults = Vec::new();
        let mut words = words.iter();
        while let Some(word) = words.next() {
            match word.as_str() {
                "--help" | "-h" => return Ok(Asked::Help),
                "--version" | "-V" => return Ok(Asked::Version),
                option if option.starts_with('-') => {
                    faults.extend(options.set(option, &mut words).err());
                }
                _ if command.is_none() => command = Some(word.clone()),
                word => faults.push(format!(
                    "one word too many: {word}; put the command in quotes"
                )),
            }
        }
        match command {
            Some(command) if faults.is_empty() => Ok(Asked::Judge(command, options)),
            None if faults.is_empty() => Err(vec![
                "the command that starts a keeper was expected".to_string()
            ]),
            _ => Err(faults),
        }
    }
}
