//! The sixteen steps as words.

use super::names::{expanded, modifier_type, Names, LONGEST_LIST};
use super::words::{Fault, Words};
use crate::text::grouped;
use request_keeper::{Id, ModifierType, Peer, Step, SyncInfo};

/// What wakes the keeper: a step that owns its lists.
#[derive(Debug, Clone, PartialEq, Eq)]
pub enum Wake {
    Start,
    Pick,
    Needed(ModifierType, Id),
    Reorg(u32),
    Announced(Peer, ModifierType, Vec<Id>),
    /// `None` if it could not be parsed.
    SyncInfo(Peer, Option<Info>),
    Message,
    Lost(Peer),
    Received(Vec<Id>),
    Evicted(Vec<Id>),
    Progress,
    Check,
    ScheduledTick,
    SectionTick,
    SendFailure,
    EndOfStream,
}

/// A parsed sync info.
#[derive(Debug, Clone, PartialEq, Eq)]
pub struct Info {
    pub tip: Option<u32>,
    pub continuation: Vec<Id>,
}

const STEPS: &str = "start, pick, needed, reorg, announced, sync-info, message, lost, received, evicted, progress, check, \
scheduled-tick, section-tick, send-failure or end-of-stream";

impl Wake {
    pub fn step(&self) -> Step<'_> {
        match self {
            Self::Start => Step::Start,
            Self::Pick => Step::Pick,
            Self::Needed(modifier_type, id) => Step::NeededModifier {
                modifier_type: *modifier_type,
                id,
            },
            Self::Reorg(fork_point) => Step::Reorg {
                fork_point: *fork_point,
            },
            Self::Announced(from, modifier_type, ids) => Step::Announced {
                from: *from,
                modifier_type: *modifier_type,
                ids,
            },
            Self::SyncInfo(from, parsed) => Step::SyncInfo {
                from: *from,
                parsed: parsed.as_ref().map(|info| SyncInfo {
                    tip: info.tip,
                    continuation: &info.continuation,
                }),
            },
            Self::Message => Step::OtherMessage,
            Self::Lost(peer) => Step::LostPeer { peer: *peer },
            Self::Received(ids) => Step::Received { ids },
            Self::Evicted(ids) => Step::Evicted { ids },
            Self::Progress => Step::Progress,
            Self::Check => Step::Check,
            Self::ScheduledTick => Step::ScheduledTick,
            Self::SectionTick => Step::SectionTick,
            Self::SendFailure => Step::SendFailure,
            Self::EndOfStream => Step::EndOfStream,
        }
    }

    /// The step's word and what follows it.
    pub fn read(words: &mut Words<'_>, names: &Names) -> Result<Self, Fault> {
        let word = words.expect(&format!("a step ({STEPS})"))?;
        let wake = match word {
            "start" => Self::Start,
            "pick" => Self::Pick,
            "needed" => Self::Needed(a_type(words)?, an_id(words, names)?),
            "reorg" => Self::Reorg(words.number("the fork point, a height")?),
            "announced" => {
                let from = a_peer(words, names)?;
                Self::Announced(from, a_type(words)?, ids(words, names)?)
            }
            "sync-info" => {
                let from = a_peer(words, names)?;
                Self::SyncInfo(from, info(words, names)?)
            }
            "message" => Self::Message,
            "lost" => Self::Lost(a_peer(words, names)?),
            "received" => Self::Received(ids(words, names)?),
            "evicted" => Self::Evicted(ids(words, names)?),
            "progress" => Self::Progress,
            "check" => Self::Check,
            "scheduled-tick" => Self::ScheduledTick,
            "section-tick" => Self::SectionTick,
            "send-failure" => Self::SendFailure,
            "end-of-stream" => Self::EndOfStream,
            _ => return Err(words.fault(format!("`{word}` is not a step: expected {STEPS}"))),
        };
        words.end()?;
        Ok(wake)
    }
}

pub fn a_type(words: &mut Words<'_>) -> Result<ModifierType, Fault> {
    let word =
        words.expect("a type (transaction, header, block, proofs, extension or a number)")?;
    modifier_type(word).map_err(|what| words.fault(what))
}

pub fn a_peer(words: &mut Words<'_>, names: &Names) -> Result<Peer, Fault> {
    let word = words.expect("a peer")?;
    names.peer(word).map_err(|what| words.fault(what))
}

pub fn an_id(words: &mut Words<'_>, names: &Names) -> Result<Id, Fault> {
    let word = words.expect("an id")?;
    names.id(word).map_err(|what| words.fault(what))
}

/// Each word that is left, ranges spelled out; `none` alone is no word.
pub fn list<T>(
    words: &mut Words<'_>,
    what: &str,
    mut each: impl FnMut(&str) -> Result<T, String>,
) -> Result<Vec<T>, Fault> {
    let given = words.all();
    if given.is_empty() {
        return Err(words.fault(format!("the line ends where {what} or `none` was expected")));
    }
    if given == ["none"] {
        return Ok(Vec::new());
    }
    let mut found = Vec::new();
    for word in given {
        for name in expanded(word).map_err(|what| words.fault(what))? {
            found.push(each(&name).map_err(|what| words.fault(what))?);
        }
        if found.len() > LONGEST_LIST {
            let most = grouped(LONGEST_LIST as u64);
            return Err(words.fault(format!("a list has at most {most} entries")));
        }
    }
    Ok(found)
}

pub fn ids(words: &mut Words<'_>, names: &Names) -> Result<Vec<Id>, Fault> {
    list(words, "ids", |word| names.id(word))
}

pub fn peers(words: &mut Words<'_>, names: &Names) -> Result<Vec<Peer>, Fault> {
    list(words, "peers", |word| names.peer(word))
}

fn info(words: &mut Words<'_>, names: &Names) -> Result<Option<Info>, Fault> {
    const FORMS: &str = "`tip HEIGHT`, `no-tip` or `unparsed`";
    let tip = match words.expect(FORMS)? {
        "unparsed" => return Ok(None),
        "no-tip" => None,
        "tip" => Some(words.number("the peer's tip, a height")?),
        word => return Err(words.fault(format!("`{word}` was not expected here, but {FORMS}"))),
    };
    let continuation = match words.word() {
        None => Vec::new(),
        Some("continues") => ids(words, names)?,
        Some(word) => {
            return Err(words.fault(format!(
                "`{word}` was not expected here, but `continues ID..` or the end of the line"
            )))
        }
    };
    Ok(Some(Info { tip, continuation }))
}
