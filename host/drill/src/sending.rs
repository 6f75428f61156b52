//! A step's commands, and what became of each: sent, failed, or dropped with the rest of its batch.

use request_keeper::{Command, Finished, Id, Message, ModifierType, Peer};
use std::collections::BTreeSet;

#[derive(Debug, Clone, PartialEq, Eq)]
pub struct Sending {
    pub to: Peer,
    pub what: Sent,
    pub fate: SendFate,
}

#[derive(Debug, Clone, PartialEq, Eq)]
pub enum Sent {
    Request(ModifierType, Vec<Id>),
    Announcement(Vec<Id>),
    SyncInfo,
}

#[derive(Debug, Clone, Copy, PartialEq, Eq)]
pub enum SendFate {
    Sent,
    Failed,
    /// Not tried, because a send of its batch had failed.
    Dropped,
}

fn sending(command: &Command<'_>, fate: SendFate) -> Sending {
    let what = match command.message {
        Message::Request { modifier_type, ids } => Sent::Request(modifier_type, ids.to_vec()),
        Message::Announcement { ids } => Sent::Announcement(ids.to_vec()),
        Message::SyncInfo => Sent::SyncInfo,
    };
    Sending {
        to: command.to,
        what,
        fate,
    }
}

/// Sends a step's commands as a shell does. The second part: whether send failure has to be the next step.
pub fn sent(finished: Finished<'_>, fails: &BTreeSet<Peer>) -> (Vec<Sending>, bool) {
    let mut written = finished.commands();
    let mut outbox = finished.outbox();
    let mut sendings = Vec::new();
    loop {
        let dropped_before = outbox.dropped();
        let next = outbox.next();
        let dropped = outbox.dropped() - dropped_before;
        for command in written.by_ref().take(dropped) {
            sendings.push(sending(&command, SendFate::Dropped));
        }
        let Some(command) = next else { break };
        written.next();
        let fate = if fails.contains(&command.to) {
            outbox.failed();
            SendFate::Failed
        } else {
            SendFate::Sent
        };
        sendings.push(sending(&command, fate));
    }
    (sendings, outbox.entry_failed())
}
