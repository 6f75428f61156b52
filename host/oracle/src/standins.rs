//! The original's three traits, answered from the scene.

use crate::domain::byte;
use crate::scene::{self, Scene, Stop};
use crate::traits::{SyncChain, SyncStore, SyncTransport};
use enr_chain::{BlockId, ChainError, Header, SyncInfo};
use enr_p2p::protocol::messages::ProtocolMessage;
use enr_p2p::protocol::peer::ProtocolEvent;
use enr_p2p::types::PeerId;
use ergo_validation::{Applied, BlockValidator, Parameters, StatePersistence, ValidationError};
use keeper_values::numbers::commands;
use keeper_values::{Id, Place, Row};
use std::error::Error;
use std::future::{poll_fn, ready, Future};
use std::panic::Location;
use std::task::Poll;

pub struct Transport;
pub struct Chain;
pub struct Store;

/// Never made: the oracle runs without a validator.
pub enum Validator {}

type SendError = Box<dyn Error + Send>;

fn outcome(sent: bool) -> Result<(), SendError> {
    if sent {
        Ok(())
    } else {
        Err(Box::new(std::fmt::Error))
    }
}

/// Gives the scene's answer once there is one, else stops the Rust here.
fn stopping<T>(
    stop: Option<Stop>,
    mut answer: impl FnMut(&mut Scene) -> Option<T>,
) -> impl Future<Output = T> {
    poll_fn(move |_| {
        scene::with(|scene| match answer(scene) {
            Some(value) => Poll::Ready(value),
            None => {
                scene.stop = stop.or(scene.stop);
                Poll::Pending
            }
        })
    })
}

impl SyncTransport for Transport {
    #[track_caller]
    fn send_to(
        &self,
        peer: PeerId,
        message: ProtocolMessage,
    ) -> impl Future<Output = Result<(), SendError>> + Send {
        let function = scene::function(Location::caller());
        let (kind, type_id, ids) = match message {
            ProtocolMessage::ModifierRequest { modifier_type, ids } => {
                (commands::REQUEST, modifier_type, ids)
            }
            ProtocolMessage::Inv { modifier_type, ids } => {
                (commands::ANNOUNCEMENT, modifier_type, ids)
            }
            ProtocolMessage::SyncInfo { .. } => (commands::SYNC_INFO, 0, Vec::new()),
            _ => (0, 0, Vec::new()),
        };
        // After a pick or a switch the next sync info is the entry's.
        let entry = kind == commands::SYNC_INFO
            && (tracing::noted("starting header sync")
                || tracing::noted("peer is ahead, resuming sync"));
        let sent = scene::with(|scene| {
            let fails = !entry && scene.call.fails.contains(&scene.sends.len());
            scene.send(function, kind, peer.0, type_id, ids, fails);
            !fails
        });
        stopping(Some(Stop::EntrySend), move |scene| {
            if entry {
                scene.entry_send.take().map(outcome)
            } else {
                Some(outcome(sent))
            }
        })
    }

    #[track_caller]
    fn outbound_peers(&self) -> impl Future<Output = Vec<PeerId>> + Send {
        let function = scene::function(Location::caller());
        stopping(Some(Stop::Pick), move |scene| {
            if function == "pick_sync_peer" && !std::mem::take(&mut scene.pick) {
                return None;
            }
            Some(scene.peers(function).into_iter().map(PeerId).collect())
        })
    }

    #[track_caller]
    fn next_event(&mut self) -> impl Future<Output = Option<ProtocolEvent>> + Send {
        let waits = scene::function(Location::caller()) == "pick_sync_peer";
        stopping(waits.then_some(Stop::Wait), |scene| scene.event.take())
    }
}

impl SyncStore for Store {
    #[track_caller]
    fn has_modifier(&self, type_id: u8, id: &Id) -> impl Future<Output = bool> + Send {
        let function = scene::function(Location::caller());
        ready(scene::with(|scene| scene.stored(function, type_id, id)))
    }

    async fn get_modifier(&self, _: u8, _: &Id) -> Option<Vec<u8>> {
        None
    }

    async fn validated_height(&self) -> Option<u32> {
        None
    }

    async fn set_validated_height(&self, _: u32) {}

    async fn flush(&self) {}

    async fn prune_below_height(&self, _: u32, _: &[u8]) -> Result<usize, String> {
        Ok(0)
    }

    async fn min_height_present(&self, _: u8) -> Result<Option<u32>, String> {
        Ok(None)
    }
}

/// A section as the Rust's header lists it.
fn place(place: &Place) -> (u8, Id, bool) {
    (byte(place.type_id), place.id, place.stored)
}

impl SyncChain for Chain {
    async fn chain_height(&self) -> u32 {
        scene::with(|scene| scene.call.height)
    }

    async fn build_sync_info(&self) -> Vec<u8> {
        Vec::new()
    }

    async fn header_at(&self, height: u32) -> Option<Header> {
        scene::with(|scene| match scene.call.view.row(height) {
            Some(Row::Present(places)) => Some(Header::with_sections(
                height,
                places.iter().map(place).collect(),
            )),
            Some(Row::Absent) => None,
            None => {
                scene.outside_view = true;
                None
            }
        })
    }

    async fn header_state_root(&self, _: u32) -> Option<[u8; 33]> {
        None
    }

    /// Our own sync infos are empty and are parsed for a log line only.
    fn parse_sync_info(&self, body: &[u8]) -> Result<SyncInfo, ChainError> {
        scene::with(|scene| {
            if body.is_empty() || !scene.call.parsed {
                Err(ChainError)
            } else if scene.call.has_tip {
                let tip = Header::with_sections(scene.call.tip, Vec::new());
                Ok(SyncInfo::V2 { headers: vec![tip] })
            } else {
                Ok(SyncInfo::V1 {
                    header_ids: Vec::new(),
                })
            }
        })
    }

    async fn continuation_ids(&self, _: &[BlockId], _: usize) -> Vec<Id> {
        scene::with(|scene| scene.call.continuation.clone())
    }

    async fn active_parameters(&self) -> Parameters {
        Parameters
    }

    async fn is_epoch_boundary(&self, _: u32) -> bool {
        false
    }

    async fn voting_length(&self) -> u32 {
        1024
    }

    async fn compute_expected_parameters(
        &self,
        _: u32,
        _: &[u8],
    ) -> Result<Parameters, ChainError> {
        Err(ChainError)
    }

    async fn apply_epoch_boundary_parameters(&self, _: Parameters, _: Vec<u8>) {}

    async fn active_proposed_update_bytes(&self) -> Vec<u8> {
        Vec::new()
    }

    async fn verify_nipopow_envelope(&self, _: &[u8]) -> Result<Vec<Header>, ChainError> {
        Err(ChainError)
    }

    async fn is_better_nipopow(&self, _: &[u8], _: &[u8]) -> Result<bool, ChainError> {
        Err(ChainError)
    }

    async fn install_nipopow_suffix(&self, _: Header, _: Vec<Header>) -> Result<(), ChainError> {
        Err(ChainError)
    }
}

impl BlockValidator for Validator {
    fn validated_height(&self) -> u32 {
        match *self {}
    }

    fn state_persistence(&self) -> Option<&dyn StatePersistence> {
        match *self {}
    }

    fn reset_to(&mut self, _: u32, _: [u8; 33]) -> Result<(), ValidationError> {
        match *self {}
    }

    fn apply_state(
        &mut self,
        _: &Header,
        _: &[u8],
        _: Option<&[u8]>,
        _: &[u8],
        _: Option<&[u8]>,
        _: &[Header],
        _: &Parameters,
        _: Option<&Parameters>,
        _: Option<&[u8]>,
    ) -> Result<Applied, ValidationError> {
        match *self {}
    }
}
