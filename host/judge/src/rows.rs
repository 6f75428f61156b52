//! Two answers, field by field.

use crate::names::{outcome, Names};
use crate::value::Value;
use keeper_streams::text::Line;
use keeper_values::numbers::commands;
use keeper_values::numbers::widths::{PAIR, TYPE};
use keeper_values::{Command, Id, Request, State};
use std::collections::BTreeMap;

/// A field of an answer, in the order in which the first difference is looked for. Counts that follow from the state
/// and the commands come last.
#[derive(Debug, Clone, Copy, PartialEq, Eq, PartialOrd, Ord)]
pub enum Field {
    Number,
    Outcome,
    Retried,
    Fresh,
    Abandoned,
    Forgotten,
    Command,
    Mode,
    SyncPeer,
    LastClock,
    LastProgress,
    LastSend,
    SendsCounted,
    Downloaded,
    KnownTip,
    ProgressMark,
    EntryMark,
    Stalled,
    Evicted,
    Pending,
    Pairs,
    PendingCount,
    EvictedCount,
    Length,
}

impl Field {
    pub fn name(self) -> &'static str {
        match self {
            Field::Number => "number",
            Field::Outcome => "outcome",
            Field::Retried => "retried",
            Field::Fresh => "fresh",
            Field::Abandoned => "abandoned",
            Field::Forgotten => "forgotten",
            Field::Command => "command",
            Field::Mode => "mode",
            Field::SyncPeer => "sync peer",
            Field::LastClock => "last clock",
            Field::LastProgress => "last progress",
            Field::LastSend => "last send",
            Field::SendsCounted => "sends counted",
            Field::Downloaded => "downloaded height",
            Field::KnownTip => "known tip",
            Field::ProgressMark => "progress mark",
            Field::EntryMark => "entry mark",
            Field::Stalled => "stalled",
            Field::Evicted => "evicted",
            Field::Pending => "pending id",
            Field::Pairs => "pairs",
            Field::PendingCount => "count of pending",
            Field::EvictedCount => "count of evicted",
            Field::Length => "length",
        }
    }
}

/// A field; which command or which pending id, where there are several.
type Key = (Field, Id);

const ONE: Id = [0; 32];

fn nth(index: usize) -> Id {
    let mut key = ONE;
    key[24..].copy_from_slice(&(index as u64).to_be_bytes());
    key
}

/// A field's name and value.
type Said = (String, Value);

type Facts = BTreeMap<Key, Said>;

fn text(value: impl ToString) -> Value {
    Value::Text(value.to_string())
}

fn list(entries: Vec<String>) -> Value {
    Value::List(String::new(), entries)
}

fn request_value(request: &Request) -> Value {
    Value::Record(vec![
        ("peer", request.peer.to_string()),
        ("type", request.type_id.to_string()),
        ("stamp", request.stamp.to_string()),
        ("checks", request.checks.to_string()),
    ])
}

fn command_value(command: &Command, names: &Names) -> Value {
    let what = match command.kind {
        commands::REQUEST => format!("request type {}", command.type_id),
        commands::ANNOUNCEMENT => format!("announcement type {}", command.type_id),
        commands::SYNC_INFO => format!("sync info type {}", command.type_id),
        kind => format!("kind {kind} type {}", command.type_id),
    };
    let head = format!("{what} to {}, batch {}: ", command.peer, command.batch);
    Value::List(head, names.ids(&command.ids))
}

fn state_facts(state: &State, names: &Names) -> Facts {
    let mark = |mark: bool| text(u8::from(mark));
    let sync_peer = match state.sync_peer {
        Some(peer) => text(peer),
        None => text("none"),
    };
    let stalled = state.stalled.iter().map(u64::to_string).collect();
    let fields = [
        (Field::Mode, text(state.mode.name())),
        (Field::SyncPeer, sync_peer),
        (Field::LastClock, text(state.last_clock)),
        (Field::LastProgress, text(state.last_progress)),
        (Field::LastSend, text(state.last_send)),
        (Field::SendsCounted, text(state.sends_counted)),
        (Field::Downloaded, text(state.downloaded)),
        (Field::KnownTip, text(state.known_tip)),
        (Field::ProgressMark, mark(state.progress_mark)),
        (Field::EntryMark, mark(state.entry_mark)),
        (Field::Stalled, list(stalled)),
        (Field::Evicted, list(names.ids(&state.evicted))),
    ];
    let fields = fields.map(|(field, value)| ((field, ONE), (field.name().to_string(), value)));
    let pending = state.pending.iter().map(|(id, request)| {
        let name = format!("{} {}", Field::Pending.name(), names.id(id));
        ((Field::Pending, *id), (name, request_value(request)))
    });
    fields.into_iter().chain(pending).collect()
}

/// After `open` the number, after `ask` number and length, after `step` all nine.
fn number_facts(numbers: &[u64]) -> Facts {
    const FIELDS: [Field; 9] = [
        Field::Number,
        Field::Outcome,
        Field::Retried,
        Field::Fresh,
        Field::Abandoned,
        Field::Forgotten,
        Field::PendingCount,
        Field::EvictedCount,
        Field::Length,
    ];
    let fields = match numbers.len() {
        2 => vec![Field::Number, Field::Length],
        _ => FIELDS.to_vec(),
    };
    let fact = |(field, number): (Field, &u64)| {
        let value = match field {
            Field::Outcome => outcome(*number),
            _ => number.to_string(),
        };
        ((field, ONE), (field.name().to_string(), Value::Text(value)))
    };
    fields.into_iter().zip(numbers).map(fact).collect()
}

fn pairs_value(bytes: &[u8], names: &Names) -> Value {
    let part = || "part of a pair".to_string();
    let pairs = bytes.chunks(PAIR);
    list(
        pairs
            .map(|pair| names.pair(pair).unwrap_or_else(part))
            .collect(),
    )
}

fn facts(answer: &[Line], names: &Names) -> Facts {
    let mut facts = Facts::new();
    let mut commands = 0;
    for line in answer {
        match line {
            Line::Answer(numbers) => facts.extend(number_facts(numbers)),
            Line::Command(command) => {
                let name = format!("{} {commands}", Field::Command.name());
                let said = (name, command_value(command, names));
                facts.insert((Field::Command, nth(commands)), said);
                commands += 1;
            }
            Line::State(state) => facts.extend(state_facts(state, names)),
            Line::Pairs(bytes) => {
                let said = (Field::Pairs.name().to_string(), pairs_value(bytes, names));
                facts.insert((Field::Pairs, ONE), said);
            }
            _ => {}
        }
    }
    facts
}

/// One field of both answers; none where an answer has no such field.
#[derive(Debug, Clone, PartialEq, Eq)]
pub struct Row {
    pub field: Field,
    pub name: String,
    pub yours: Option<Value>,
    pub core: Option<Value>,
}

/// All fields of both answers, side by side.
pub fn rows(yours: &[Line], core: &[Line], names: &Names) -> Vec<Row> {
    let (mut own, mut right) = (facts(yours, names), facts(core, names));
    let mut keys: Vec<Key> = own.keys().chain(right.keys()).copied().collect();
    keys.sort();
    keys.dedup();
    let row = |key: Key| {
        let (one, other) = (own.remove(&key), right.remove(&key));
        let name = one.as_ref().or(other.as_ref()).map(|said| said.0.clone());
        Row {
            field: key.0,
            name: name.unwrap_or_default(),
            yours: one.map(|said| said.1),
            core: other.map(|said| said.1),
        }
    };
    keys.into_iter().map(row).collect()
}

/// Every id that an answer speaks of.
pub fn ids(answer: &[Line]) -> Vec<Id> {
    let mut ids = Vec::new();
    for line in answer {
        match line {
            Line::Command(command) => ids.extend(&command.ids),
            Line::State(state) => ids.extend(state.pending.keys().chain(&state.evicted)),
            Line::Pairs(bytes) => {
                let pairs = bytes.chunks_exact(PAIR);
                ids.extend(pairs.filter_map(|pair| Id::try_from(&pair[TYPE..]).ok()));
            }
            _ => {}
        }
    }
    ids
}
