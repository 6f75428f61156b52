//! What a step is expected to have come to, as words.

use super::names::Names;
use super::wakes::{a_peer, a_type, an_id, ids, peers};
use super::words::{Fault, Words};
use request_keeper::{Id, MeanAge, Mode, ModifierType, Outcome, Peer};

#[derive(Debug, Clone, PartialEq, Eq)]
pub enum Expectation {
    Outcome(Outcome),
    /// The refusal's number.
    Refused(u32),
    /// Asked right before it, the step was foretold to come to this.
    Forecast(Foretold),
    /// The mean age of what is pending after it, at its clock.
    MeanAge(MeanAge),
    Mode(Mode),
    /// `None`: there is none.
    SyncPeer(Option<Peer>),
    Downloaded(u32),
    KnownTip(u32),
    /// Exactly these ids are on order.
    Pending(Vec<Id>),
    /// This id is on order, and what is said of it holds.
    Request(Id, Record),
    /// Exactly these ids wait for the next check, in this order.
    Evicted(Vec<Id>),
    Stalled(Vec<Peer>),
    Sent(Peer, SentWhat),
    NothingSent,
    /// How many messages went out.
    Sends(usize),
    Failed(usize),
    Dropped(usize),
    Retried(u32),
    Fresh(u32),
    Abandoned(u32),
    Forgotten(u32),
}

/// What is to have been foretold of a step.
#[derive(Debug, Clone, Copy, PartialEq, Eq)]
pub enum Foretold {
    /// The refusal's number.
    Refused(u32),
    Finished(Figures),
}

/// What is said of a step foretold to be finished; what is left open may be anything.
#[derive(Debug, Clone, Copy, PartialEq, Eq, Default)]
pub struct Figures {
    pub outcome: Option<Outcome>,
    pub pending: Option<u32>,
    pub evicted: Option<u32>,
    /// How many commands.
    pub commands: Option<u32>,
    /// Their bytes.
    pub bytes: Option<u32>,
}

/// What is said of a request on order; what is left open may be anything.
#[derive(Debug, Clone, Copy, PartialEq, Eq, Default)]
pub struct Record {
    pub peer: Option<Peer>,
    pub modifier_type: Option<ModifierType>,
    pub stamp: Option<u64>,
    pub age: Option<u64>,
    pub checks: Option<u32>,
}

/// A message that is to have gone out.
#[derive(Debug, Clone, PartialEq, Eq)]
pub enum SentWhat {
    Request(ModifierType, Vec<Id>),
    Announcement(Vec<Id>),
    SyncInfo,
}

const EXPECTATIONS: &str = "outcome, refused, forecast, mean-age, mode, sync-peer, downloaded, known-tip, pending, request, evicted, \
stalled, sent, nothing, sends, failed, dropped, retried, fresh, abandoned or forgotten";

const OUTCOMES: [(&str, Outcome); 6] = [
    ("Continue", Outcome::Continue),
    ("Synced", Outcome::Synced),
    ("BehindPeer", Outcome::BehindPeer),
    ("SyncPeerGone", Outcome::SyncPeerGone),
    ("Stalled", Outcome::Stalled),
    ("EndOfStream", Outcome::EndOfStream),
];

const MODES: [(&str, Mode); 5] = [
    ("new", Mode::New),
    ("seeking", Mode::Seeking),
    ("syncing", Mode::Syncing),
    ("synced", Mode::Synced),
    ("ended", Mode::Ended),
];

/// One of a few words, capitals or not.
fn one_of<T: Copy>(words: &mut Words<'_>, what: &str, table: &[(&str, T)]) -> Result<T, Fault> {
    let names: Vec<&str> = table.iter().map(|(name, _)| *name).collect();
    let expected = format!("{what} ({})", names.join(", "));
    let word = words.expect(&expected)?;
    let found = table
        .iter()
        .find(|(name, _)| name.eq_ignore_ascii_case(word));
    found
        .map(|(_, value)| *value)
        .ok_or_else(|| words.fault(format!("`{word}` is not {expected}")))
}

impl Expectation {
    /// What follows `expect`.
    pub fn read(words: &mut Words<'_>, names: &Names) -> Result<Self, Fault> {
        let word = words.expect(EXPECTATIONS)?;
        let expectation = match word {
            "outcome" => Self::Outcome(outcome(words)?),
            "refused" => Self::Refused(refusal(words)?),
            "forecast" => Self::Forecast(foretold(words)?),
            "mean-age" => Self::MeanAge(mean_age(words)?),
            "mode" => Self::Mode(one_of(words, "a mode", &MODES)?),
            "sync-peer" => Self::SyncPeer(sync_peer(words, names)?),
            "downloaded" => Self::Downloaded(words.number("a height")?),
            "known-tip" => Self::KnownTip(words.number("a height")?),
            "pending" => Self::Pending(ids(words, names)?),
            "request" => Self::Request(an_id(words, names)?, record(words, names)?),
            "evicted" => Self::Evicted(ids(words, names)?),
            "stalled" => Self::Stalled(peers(words, names)?),
            "sent" => Self::Sent(a_peer(words, names)?, sent(words, names)?),
            "nothing" => match words.expect("`sent`")? {
                "sent" => Self::NothingSent,
                word => {
                    return Err(words.fault(format!("`{word}` was not expected here, but `sent`")))
                }
            },
            "sends" => Self::Sends(words.number("a number of messages")?),
            "failed" => Self::Failed(words.number("a number of messages")?),
            "dropped" => Self::Dropped(words.number("a number of messages")?),
            "retried" => Self::Retried(words.number("a number of requests")?),
            "fresh" => Self::Fresh(words.number("a number of ids")?),
            "abandoned" => Self::Abandoned(words.number("a number of requests")?),
            "forgotten" => Self::Forgotten(words.number("a number of transactions")?),
            _ => {
                return Err(words.fault(format!(
                    "`{word}` can't be expected: after `expect` comes {EXPECTATIONS}"
                )))
            }
        };
        words.end()?;
        Ok(expectation)
    }
}

fn outcome(words: &mut Words<'_>) -> Result<Outcome, Fault> {
    one_of(words, "an outcome", &OUTCOMES)
}

fn refusal(words: &mut Words<'_>) -> Result<u32, Fault> {
    match words.number("a refusal's number, 1 to 11")? {
        number @ 1..=11 => Ok(number),
        number => Err(words.fault(format!("`{number}` is not a refusal's number, 1 to 11"))),
    }
}

fn foretold(words: &mut Words<'_>) -> Result<Foretold, Fault> {
    const FORMS: &str = "`finished` or `refused NUMBER`";
    match words.expect(FORMS)? {
        "finished" => Ok(Foretold::Finished(figures(words)?)),
        "refused" => Ok(Foretold::Refused(refusal(words)?)),
        word => Err(words.fault(format!("`{word}` was not expected here, but {FORMS}"))),
    }
}

fn figures(words: &mut Words<'_>) -> Result<Figures, Fault> {
    let mut figures = Figures::default();
    while let Some(word) = words.word() {
        match word {
            "outcome" => figures.outcome = Some(outcome(words)?),
            "pending" => figures.pending = Some(words.number("a number of requests")?),
            "evicted" => figures.evicted = Some(words.number("a number of ids")?),
            "commands" => figures.commands = Some(words.number("a number of commands")?),
            "bytes" => figures.bytes = Some(words.number("a number of bytes")?),
            _ => {
                return Err(words.fault(format!(
                    "`{word}` was not expected here, but outcome, pending, evicted, commands or bytes with its value"
                )))
            }
        }
    }
    Ok(figures)
}

/// "n, q and r": the sum of all ages is q × n + r.
fn mean_age(words: &mut Words<'_>) -> Result<MeanAge, Fault> {
    Ok(MeanAge {
        count: words.number("a number of requests")?,
        quotient: words.number("the quotient in ms")?,
        remainder: words.number("the remainder")?,
    })
}

fn sync_peer(words: &mut Words<'_>, names: &Names) -> Result<Option<Peer>, Fault> {
    let word = words.expect("a peer or `none`")?;
    if word == "none" {
        return Ok(None);
    }
    let peer = names.peer(word).map_err(|what| words.fault(what))?;
    Ok(Some(peer))
}

fn record(words: &mut Words<'_>, names: &Names) -> Result<Record, Fault> {
    let mut record = Record::default();
    while let Some(word) = words.word() {
        match word {
            "peer" => record.peer = Some(a_peer(words, names)?),
            "type" => record.modifier_type = Some(a_type(words)?),
            "stamp" => record.stamp = Some(words.number("a clock in ms")?),
            "age" => record.age = Some(words.number("an age in ms")?),
            "checks" => record.checks = Some(words.number("a number of checks")?),
            _ => {
                return Err(words.fault(format!(
                    "`{word}` was not expected here, but peer, type, stamp, age or checks with its value"
                )))
            }
        }
    }
    Ok(record)
}

fn sent(words: &mut Words<'_>, names: &Names) -> Result<SentWhat, Fault> {
    let mut ahead = words.clone();
    match ahead.word() {
        Some("sync-info") => {
            *words = ahead;
            Ok(SentWhat::SyncInfo)
        }
        Some("announcement") => {
            *words = ahead;
            Ok(SentWhat::Announcement(ids(words, names)?))
        }
        None => Err(words.fault(
            "the line ends where `sync-info`, `announcement ID..` or a request's `TYPE ID..` was expected",
        )),
        Some(_) => Ok(SentWhat::Request(a_type(words)?, ids(words, names)?)),
    }
}
