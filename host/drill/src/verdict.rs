//! Whether what was expected of a step is what it came to.

use crate::play::Moment;
use crate::scenario::{show_type, Expectation, Figures, Foretold, Line, Names, Record, SentWhat};
use crate::sending::{SendFate, Sending, Sent};
use crate::text::{self, grouped, mode_word};
use request_keeper::{Answer, Forecast, Id, Peer, PendingRequest, Refusal};

/// An expectation, judged.
#[derive(Debug, Clone, PartialEq, Eq)]
pub struct Verdict {
    pub line: usize,
    /// In the scenario's words.
    pub expected: String,
    /// What was found instead; `None` if it is met.
    pub found: Option<String>,
}

impl Verdict {
    pub fn met(&self) -> bool {
        self.found.is_none()
    }

    /// A step is expected to be finished unless the scenario says otherwise.
    pub fn unexpected_refusal(moment: &mut Moment) {
        if let (Err(refusal), false) = (moment.result, moment.refusal_expected) {
            let verdict = Self {
                line: moment.line,
                expected: "a finished step".to_string(),
                found: Some(refusal.to_string()),
            };
            // The step's own line stands above those of its expectations.
            moment.verdicts.insert(0, verdict);
        }
    }
}

/// Holds one expectation against its step.
pub fn judge(line: &Line, expectation: &Expectation, moment: &Moment, names: &Names) -> Verdict {
    Verdict {
        line: line.number,
        expected: line.text.split_whitespace().collect::<Vec<_>>().join(" "),
        found: found_instead(expectation, moment, names),
    }
}

/// `None` where both are the same, else the words for what was found.
fn unless<T: PartialEq>(
    expected: &T,
    found: &T,
    words: impl FnOnce(&T) -> String,
) -> Option<String> {
    (expected != found).then(|| words(found))
}

fn found_instead(expectation: &Expectation, moment: &Moment, names: &Names) -> Option<String> {
    let after = &moment.after;
    match expectation {
        Expectation::Refused(number) => refused(*number, moment),
        Expectation::Forecast(expected) => foretold(expected, &moment.forecast),
        Expectation::MeanAge(expected) => unless(&Ok(*expected), &moment.mean_age, text::mean_age),
        Expectation::Outcome(outcome) => counted(moment, |answer| {
            unless(outcome, &answer.outcome, |found| format!("{found:?}"))
        }),
        Expectation::Retried(count) => a_count(moment, *count, |answer| answer.retried),
        Expectation::Fresh(count) => a_count(moment, *count, |answer| answer.fresh),
        Expectation::Abandoned(count) => a_count(moment, *count, |answer| answer.abandoned),
        Expectation::Forgotten(count) => a_count(moment, *count, |answer| answer.forgotten),
        Expectation::Mode(mode) => unless(mode, &after.mode, |found| mode_word(*found).to_string()),
        Expectation::SyncPeer(peer) => unless(peer, &after.sync_peer, |found| {
            found.map_or("none".to_string(), |found| names.show_peer(found))
        }),
        Expectation::Downloaded(height) => {
            unless(height, &after.downloaded, |found| found.to_string())
        }
        Expectation::KnownTip(height) => {
            unless(height, &after.known_tip, |found| found.to_string())
        }
        Expectation::Pending(ids) => {
            let mut expected = ids.clone();
            expected.sort_unstable();
            expected.dedup();
            let found: Vec<Id> = after.pending.keys().copied().collect();
            unless(&expected, &found, |found| names.show_ids(found))
        }
        Expectation::Request(id, record) => {
            request(after.pending.get(id), record, moment.clock, names)
        }
        Expectation::Evicted(ids) => unless(ids, &after.evicted, |found| names.show_ids(found)),
        Expectation::Stalled(peers) => {
            unless(peers, &after.stalled, |found| names.show_peers(found))
        }
        Expectation::Sent(to, what) => sent(*to, what, &moment.sendings, names),
        Expectation::NothingSent => unless(&0, &moment.sendings.len(), |_| {
            list_of(&moment.sendings, names)
        }),
        Expectation::Sends(count) => sends(*count, moment, SendFate::Sent),
        Expectation::Failed(count) => sends(*count, moment, SendFate::Failed),
        Expectation::Dropped(count) => sends(*count, moment, SendFate::Dropped),
    }
}

fn refused(number: u32, moment: &Moment) -> Option<String> {
    match moment.result {
        Ok(answer) => Some(format!("finished with {:?}", answer.outcome)),
        Err(refusal) => unless(&number, &refusal.number(), |_| refusal.to_string()),
    }
}

fn foretold(expected: &Foretold, found: &Result<Forecast, Refusal>) -> Option<String> {
    let holds = match (expected, found) {
        (Foretold::Refused(number), Err(refusal)) => *number == refusal.number(),
        (Foretold::Finished(figures), Ok(found)) => as_foretold(figures, found),
        _ => false,
    };
    (!holds).then(|| text::forecast(found))
}

fn as_foretold(expected: &Figures, found: &Forecast) -> bool {
    let is = |expected: Option<u32>, found| expected.is_none_or(|expected| expected == found);
    expected
        .outcome
        .is_none_or(|outcome| outcome == found.outcome)
        && is(expected.pending, found.pending)
        && is(expected.evicted, found.evicted)
        && is(expected.commands, found.commands)
        && is(expected.bytes, found.command_bytes)
}

/// What only a finished step has.
fn counted(moment: &Moment, found: impl FnOnce(&Answer) -> Option<String>) -> Option<String> {
    match &moment.result {
        Ok(answer) => found(answer),
        Err(refusal) => Some(refusal.to_string()),
    }
}

fn a_count(moment: &Moment, expected: u32, of: impl FnOnce(&Answer) -> u32) -> Option<String> {
    counted(moment, |answer| {
        unless(&expected, &of(answer), |found| found.to_string())
    })
}

fn sends(expected: usize, moment: &Moment, fate: SendFate) -> Option<String> {
    let found = moment
        .sendings
        .iter()
        .filter(|sending| sending.fate == fate);
    unless(&expected, &found.count(), |found| found.to_string())
}

fn request(
    found: Option<&PendingRequest>,
    expected: &Record,
    clock: u64,
    names: &Names,
) -> Option<String> {
    let Some(found) = found else {
        return Some("not pending".to_string());
    };
    let age = clock.saturating_sub(found.stamp);
    let holds = expected.peer.is_none_or(|peer| peer == found.peer)
        && expected
            .modifier_type
            .is_none_or(|kind| kind == found.modifier_type)
        && expected.stamp.is_none_or(|stamp| stamp == found.stamp)
        && expected.age.is_none_or(|expected| expected == age)
        && expected.checks.is_none_or(|checks| checks == found.checks);
    (!holds).then(|| {
        format!(
            "peer {}, type {}, stamp {}, age {}, checks {}",
            names.show_peer(found.peer),
            show_type(found.modifier_type),
            grouped(found.stamp),
            grouped(age),
            found.checks
        )
    })
}

fn same(what: &SentWhat, sent: &Sent) -> bool {
    match (what, sent) {
        (SentWhat::SyncInfo, Sent::SyncInfo) => true,
        (SentWhat::Announcement(expected), Sent::Announcement(ids)) => expected == ids,
        (SentWhat::Request(kind, expected), Sent::Request(found, ids)) => {
            kind == found && expected == ids
        }
        _ => false,
    }
}

/// One of the messages that went out is this one.
fn sent(to: Peer, what: &SentWhat, sendings: &[Sending], names: &Names) -> Option<String> {
    let found = sendings.iter().any(|sending| {
        sending.fate == SendFate::Sent && sending.to == to && same(what, &sending.what)
    });
    (!found).then(|| list_of(sendings, names))
}

fn list_of(sendings: &[Sending], names: &Names) -> String {
    if sendings.is_empty() {
        return "nothing was sent".to_string();
    }
    let all: Vec<String> = sendings
        .iter()
        .map(|sending| text::sending(sending, names))
        .collect();
    all.join("; ")
}
