//! The kind of a wrong answer: to which call, and in which field. Of each kind the shortest stream is kept.

use crate::names::Names;
use crate::pupil::Break;
use crate::rows::{rows, Field};
use crate::stream::Stream;
use crate::trial::{Fault, Wrong};
use keeper_streams::text::Line;
use std::collections::BTreeMap;

#[derive(Debug, Clone, PartialEq, Eq, PartialOrd, Ord)]
enum What {
    /// The keeper's number and the core's.
    Numbers(u64, u64),
    /// The first field that differs, and which part of it.
    Field(Field, Option<&'static str>),
    Written,
    Broken(&'static str),
}

#[derive(Debug, Clone, PartialEq, Eq, PartialOrd, Ord)]
pub struct Kind {
    call: &'static str,
    what: What,
}

fn number(answer: &[Line]) -> u64 {
    match answer.first() {
        Some(Line::Answer(numbers)) => numbers.first().copied().unwrap_or(0),
        _ => 0,
    }
}

fn what(yours: &[Line], core: &[Line]) -> What {
    let (own, right) = (number(yours), number(core));
    if own != right {
        return What::Numbers(own, right);
    }
    let rows = rows(yours, core, &Names::new(&[]));
    let first = rows.iter().find(|row| row.yours != row.core);
    // Answers that differ do so in some row; a length is in each.
    let field = first.map_or(Field::Length, |row| row.field);
    let part = first
        .and_then(|row| row.yours.as_ref().zip(row.core.as_ref()))
        .and_then(|(yours, core)| yours.part(core));
    What::Field(field, part.map(|part| part.0))
}

impl Kind {
    pub fn of(stream: &Stream, fault: &Fault) -> Self {
        Self {
            call: stream.call_name(fault.at),
            what: match &fault.wrong {
                Wrong::Differs(yours) => what(yours, &fault.core),
                Wrong::Written(_) => What::Written,
                Wrong::Broken(broken) => What::Broken(match broken.how {
                    Break::Unexpected(_) => "nonsense",
                    Break::Silence(..) if broken.how.is_waiting() => "silence",
                    Break::Silence(..) => "an end",
                }),
            },
        }
    }

    pub fn words(&self) -> String {
        let what = match &self.what {
            What::Numbers(own, right) => format!("number {own} for {right}"),
            What::Field(field, None) => field.name().to_string(),
            What::Field(field, Some(part)) => format!("{part} of a {}", field.name()),
            What::Written => "other letters".to_string(),
            What::Broken(how) => how.to_string(),
        };
        format!("{what} in {}", self.call)
    }
}

/// A wrong answer in the stream in which it was met, cut after it.
#[derive(Debug, Clone, PartialEq, Eq)]
pub struct Met {
    pub stream: Stream,
    pub fault: Fault,
}

/// What was met in a run.
#[derive(Debug, Default)]
pub struct Kinds {
    first: Option<Met>,
    shortest: BTreeMap<Kind, (usize, Met)>,
}

impl Kinds {
    pub fn is_empty(&self) -> bool {
        self.first.is_none()
    }

    pub fn count(&self) -> usize {
        self.shortest.len()
    }

    pub fn take(&mut self, stream: &Stream, fault: Fault) {
        let stream = stream.cut(fault.at);
        let (kind, length) = (Kind::of(&stream, &fault), stream.length());
        let met = Met { stream, fault };
        self.first.get_or_insert_with(|| met.clone());
        let known = self.shortest.get(&kind);
        if known.is_none_or(|(shortest, _)| length < *shortest) {
            self.shortest.insert(kind, (length, met));
        }
    }

    /// The first one met, and the shortest of each kind, short ones first.
    pub fn sorted(&self) -> Option<(&Met, Vec<&Met>)> {
        let mut all: Vec<&(usize, Met)> = self.shortest.values().collect();
        all.sort_by_key(|(length, _)| *length);
        let all = all.into_iter().map(|(_, met)| met).collect();
        Some((self.first.as_ref()?, all))
    }

    /// All but this one, short ones first.
    pub fn others(&self, shown: &Kind) -> Vec<String> {
        let mut others: Vec<_> = self.shortest.iter().collect();
        others.retain(|(kind, _)| *kind != shown);
        others.sort_by_key(|(_, (length, _))| *length);
        others.into_iter().map(|(kind, _)| kind.words()).collect()
    }
}
