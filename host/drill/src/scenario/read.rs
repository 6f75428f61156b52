//! Reading a whole file.

use super::changes::Change;
use super::expectations::Expectation;
use super::names::Names;
use super::wakes::{list, Wake};
use super::words::{bound, number, Fault, Words};
use super::{Line, Scenario, What};
use crate::text::grouped;
use request_keeper::{Peer, Settings};

/// More steps than this are no drill; what is read of each step is kept for the drawing.
const MOST_STEPS: usize = 2_000;

const LINES: &str = "title, setting, peer, ids, id, open, say, peers, fails, gate, chain, header, stored, unstored, view, at \
or expect";

/// What has been read so far.
#[derive(Default)]
struct Reader {
    title: Option<String>,
    settings: Settings,
    names: Names,
    open: Option<(u64, u32)>,
    lines: Vec<Line>,
    steps: usize,
    /// The last step's clock, or the opening's.
    clock: u64,
    /// Whether the last line but remarks was a step or an expectation of it.
    after_step: bool,
}

/// Reads a scenario. The first fault ends it. A byte-order mark, which some editors put first, is no word.
pub fn read(text: &str) -> Result<Scenario, Fault> {
    let text = text.strip_prefix('\u{feff}').unwrap_or(text);
    let mut reader = Reader::default();
    let mut last = 1;
    for (index, line) in text.lines().enumerate() {
        last = index + 1;
        reader.line(Words::of(last, line))?;
    }
    let fault = |what: &str| Fault {
        line: last,
        what: what.to_string(),
    };
    let open = reader
        .open
        .ok_or_else(|| fault("the file ends without an `open CLOCK HEIGHT` line"))?;
    if reader.steps == 0 {
        return Err(fault(
            "the file ends without a step: expected `at CLOCK STEP`",
        ));
    }
    Ok(Scenario {
        title: reader.title.unwrap_or_default(),
        settings: reader.settings,
        names: reader.names,
        open,
        lines: reader.lines,
    })
}

impl Reader {
    fn line(&mut self, mut words: Words<'_>) -> Result<(), Fault> {
        let Some(word) = words.word() else {
            return Ok(());
        };
        match word {
            "title" => self.title(&words),
            "setting" => self.setting(&mut words),
            "peer" => self.peer(&mut words),
            "ids" => self.ids(&mut words),
            "id" => self.id(&mut words),
            "open" => self.open(&mut words),
            "say" => {
                let text = words.text_after_first().to_string();
                self.push(&words, What::Say(text));
                Ok(())
            }
            "at" => self.at(&mut words),
            "expect" => self.expect(&mut words),
            _ => self.change(word, &mut words),
        }
    }

    fn push(&mut self, words: &Words<'_>, what: What) {
        self.lines.push(Line {
            number: words.line,
            text: words.text.to_string(),
            what,
        });
    }

    fn title(&mut self, words: &Words<'_>) -> Result<(), Fault> {
        if self.title.is_some() {
            return Err(words.fault("a second title: a scenario has one"));
        }
        match words.text_after_first() {
            "" => Err(words.fault("the line ends where the title's text was expected")),
            title => {
                self.title = Some(title.to_string());
                Ok(())
            }
        }
    }

    fn setting(&mut self, words: &mut Words<'_>) -> Result<(), Fault> {
        const SETTINGS: &str = "timeout, max_checks, min_sync_send_interval or stall_timeout";
        if self.open.is_some() {
            return Err(
                words.fault("a setting after `open`: settings are fixed when the keeper is opened")
            );
        }
        let name = words.expect(&format!("a setting ({SETTINGS})"))?;
        let value = words.number("a number of 32 bits")?;
        match name {
            "timeout" => self.settings.timeout = value,
            "max_checks" => self.settings.max_checks = value,
            "min_sync_send_interval" => self.settings.min_sync_send_interval = value,
            "stall_timeout" => self.settings.stall_timeout = value,
            _ => return Err(words.fault(format!("`{name}` is not a setting: expected {SETTINGS}"))),
        }
        words.end()
    }

    fn peer(&mut self, words: &mut Words<'_>) -> Result<(), Fault> {
        let name = words.expect("a peer's name")?;
        let peer = Peer(words.number("the peer's number")?);
        self.names
            .name_peer(name, peer)
            .map_err(|what| words.fault(what))?;
        words.end()
    }

    fn ids(&mut self, words: &mut Words<'_>) -> Result<(), Fault> {
        let names = &mut self.names;
        list(words, "names of ids", |name| names.introduce(name))?;
        Ok(())
    }

    fn id(&mut self, words: &mut Words<'_>) -> Result<(), Fault> {
        let name = words.expect("a name")?;
        let hex = words.expect("an id of 64 hex digits")?;
        self.names
            .name_id(name, hex)
            .map_err(|what| words.fault(what))?;
        words.end()
    }

    fn open(&mut self, words: &mut Words<'_>) -> Result<(), Fault> {
        if self.open.is_some() {
            return Err(words.fault("a second `open`: a scenario plays one keeper"));
        }
        self.clock = words.number("the opening's clock in ms")?;
        let height = words.number("the start height")?;
        words.end()?;
        self.open = Some((self.clock, height));
        Ok(())
    }

    fn change(&mut self, word: &str, words: &mut Words<'_>) -> Result<(), Fault> {
        let change = Change::read(word, words, &mut self.names)?
            .ok_or_else(|| words.fault(format!("`{word}` begins no line: expected {LINES}")))?;
        self.after_step = false;
        self.push(words, What::Change(change));
        Ok(())
    }

    /// `CLOCK`, or `+MS` after the last step.
    fn clock(&self, words: &mut Words<'_>) -> Result<u64, Fault> {
        const CLOCK: &str = "a clock in ms, or `+` and the ms since the last step";
        let word = words.expect(CLOCK)?;
        let clock = match word.strip_prefix('+') {
            None => number(word),
            Some(after) => number(after).and_then(|after: u64| self.clock.checked_add(after)),
        };
        clock.ok_or_else(|| {
            let bound = bound::<u64>(word.trim_start_matches('+'));
            words.fault(format!("`{word}` is not {CLOCK}{bound}"))
        })
    }

    fn at(&mut self, words: &mut Words<'_>) -> Result<(), Fault> {
        if self.open.is_none() {
            return Err(words.fault("a step before `open CLOCK HEIGHT`"));
        }
        if self.steps == MOST_STEPS {
            let most = grouped(MOST_STEPS as u64);
            return Err(words.fault(format!("a scenario has at most {most} steps")));
        }
        let clock = self.clock(words)?;
        let wake = Wake::read(words, &self.names)?;
        self.clock = clock;
        self.steps += 1;
        self.after_step = true;
        self.push(words, What::At(clock, wake));
        Ok(())
    }

    fn expect(&mut self, words: &mut Words<'_>) -> Result<(), Fault> {
        if !self.after_step {
            return Err(words.fault(
                "an expectation without its step: `expect` lines stand right after the `at` line they are about",
            ));
        }
        let expectation = Expectation::read(words, &self.names)?;
        self.push(words, What::Expect(expectation));
        Ok(())
    }
}
