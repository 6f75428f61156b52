//! What one step lays out for the stand-ins, and what they note. It is per thread and set anew for each step.

use crate::{Sent, FUNCTIONS};
use enr_p2p::protocol::peer::ProtocolEvent;
use keeper_values::numbers::{commands, types};
use keeper_values::{Call, Command, Id, TypeId};
use std::cell::RefCell;
use std::panic::Location;

/// Where the Rust waits for the next step, besides its two selects.
#[derive(Debug, Clone, Copy, PartialEq, Eq)]
pub enum Stop {
    /// `pick_sync_peer` asks for the peers.
    Pick,
    /// `pick_sync_peer` found none and waits for an event.
    Wait,
    /// The entry's sync info; whether it fails is the next step's to say.
    EntrySend,
}

#[derive(Default)]
pub struct Scene {
    pub call: Call,
    /// `pick_sync_peer` may have its peers.
    pub pick: bool,
    pub event: Option<Option<ProtocolEvent>>,
    /// How the entry's send ended, once a step has said so.
    pub entry_send: Option<bool>,
    pub stop: Option<Stop>,
    pub sends: Vec<Sent>,
    /// A height was read that the view has no row for.
    pub outside_view: bool,
    /// The Rust asked something in a way that the driver does not know.
    pub surprise: Option<&'static str>,
    /// Rule 4 has begun; no other rule asks the store after it.
    pub in_window: bool,
    pub batches: Batches,
}

/// What tells one batch from the next.
#[derive(Default)]
pub struct Batches {
    list: u32,
    list_sent: bool,
    key: Option<BatchKey>,
}

#[derive(Debug, Clone, Copy, PartialEq, Eq)]
enum BatchKey {
    List(u32),
    Retry(u64, TypeId),
    Alone,
}

thread_local! {
    static SCENE: RefCell<Scene> = RefCell::new(Scene::default());
}

/// Works on this thread's scene.
pub fn with<R>(work: impl FnOnce(&mut Scene) -> R) -> R {
    SCENE.with(|scene| work(&mut scene.borrow_mut()))
}

/// The function of state.rs that holds this place.
pub fn function(place: &Location<'_>) -> &'static str {
    let after = FUNCTIONS.partition_point(|(line, _)| *line <= place.line());
    match after.checked_sub(1) {
        Some(index) => FUNCTIONS[index].1,
        None => "",
    }
}

impl Scene {
    /// The peers; rule 4 is the only one that asks from `request_next_sections`.
    pub fn peers(&mut self, function: &str) -> Vec<u64> {
        self.in_window |= function == "request_next_sections";
        self.call.peers.clone()
    }

    /// Whether a modifier is stored: rules 4 and 5, and rule 3 called by rule 4, go by the places' own flags, all else
    /// by the pairs.
    pub fn stored(&mut self, function: &str, type_id: u8, id: &Id) -> bool {
        match function {
            "advance_downloaded_height" | "request_next_sections" => {
                enr_chain::next_flag(type_id, id).unwrap_or_else(|| {
                    self.surprise = Some("a flag was asked out of turn");
                    false
                })
            }
            "request_announced" => {
                // A list asks before it sends, so a question after a send begins the next list.
                if std::mem::take(&mut self.batches.list_sent) {
                    self.batches.list += 1;
                }
                !self.in_window && self.call.stored.contains(&(type_id.into(), *id))
            }
            _ => {
                self.surprise = Some("a flag was asked from an unknown place");
                false
            }
        }
    }

    /// Notes a send with its batch.
    pub fn send(
        &mut self,
        function: &str,
        kind: u8,
        peer: u64,
        type_id: u8,
        ids: Vec<Id>,
        failed: bool,
    ) {
        let type_id = TypeId::from(type_id);
        let key = match (function, kind) {
            ("request_announced", commands::REQUEST) => {
                self.batches.list_sent = true;
                BatchKey::List(self.batches.list)
            }
            ("handle_delivery_check", commands::REQUEST) => BatchKey::Retry(peer, type_id),
            ("handle_event", commands::ANNOUNCEMENT) if type_id == types::HEADER => BatchKey::Alone,
            ("send_sync_info", commands::SYNC_INFO) => BatchKey::Alone,
            _ => {
                self.surprise = Some("a send from an unknown place");
                BatchKey::Alone
            }
        };
        let last = self.sends.last().map(|sent| sent.command.batch);
        let batch = match last {
            None => 0,
            Some(batch) if key != BatchKey::Alone && self.batches.key == Some(key) => batch,
            Some(batch) => batch + 1,
        };
        self.batches.key = Some(key);
        self.sends.push(Sent {
            command: Command {
                kind,
                type_id,
                batch,
                peer,
                ids,
            },
            failed,
        });
    }
}
