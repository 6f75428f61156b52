//! One step: lay out its inputs, arm one wake, run the Rust up to its next parking place, read it off.

use crate::delivery::{DeliveryControl, DeliveryData};
use crate::domain::byte;
use crate::parked::Parked;
use crate::quiet;
use crate::scene::{self, Scene, Stop};
use crate::standins::{Chain, Store, Transport, Validator};
use crate::state::{probe, HeaderSync, SyncConfig};
use crate::{holds, takes, Observed, Reason, Verdict};
use enr_p2p::protocol::messages::ProtocolMessage;
use enr_p2p::protocol::peer::ProtocolEvent;
use enr_p2p::types::PeerId;
use keeper_values::numbers::{kinds, limits, outcomes, types};
use keeper_values::{Call, Id, Mode, Settings, State};
use std::collections::BTreeMap;
use std::panic::AssertUnwindSafe;
use std::task::Poll;
use tokio::sync::mpsc::{unbounded_channel, Sender};
use tokio::time::Duration;

const SYNCING_CHECK: &str = "tokio::time::sleep(until_delivery)";
const SYNCING_TICK: &str = "tokio::time::sleep(until_next)";
const SYNCING_SWEEP: &str = "sweep_ticker.tick()";
const SYNCED_TICK: &str = "ticker.tick()";
const SYNCED_CHECK: &str = "delivery_ticker.tick()";
const SYNCED_SECTIONS: &str = "section_ticker.tick()";

/// The Rust between two steps.
pub struct Oracle {
    parked: Parked,
    stop: Option<Stop>,
    control: Sender<DeliveryControl>,
    data: Sender<DeliveryData>,
    progress: Sender<u32>,
    state: State,
}

fn duration(milliseconds: u32) -> Duration {
    Duration::from_millis(u64::from(milliseconds))
}

impl Oracle {
    /// A machine that has not been started.
    pub fn open(settings: Settings, clock: u64, height: u32) -> Option<Self> {
        tokio::driver::set_clock(clock);
        let config = SyncConfig {
            stall_timeout: duration(settings.stall_timeout),
            min_sync_send_interval: duration(settings.min_sync_send_interval),
            delivery_timeout: duration(settings.timeout),
            max_delivery_checks: settings.max_checks,
            utxo_bootstrap: false,
            ..SyncConfig::default()
        };
        let (progress, progress_rx) = unbounded_channel();
        let (control, control_rx) = unbounded_channel();
        let (data, data_rx) = unbounded_channel();
        let machine = HeaderSync::new(
            config,
            Transport,
            Chain,
            Store,
            None::<Validator>,
            progress_rx,
            control_rx,
            data_rx,
            None,
            None,
            Default::default(),
            Default::default(),
            Default::default(),
            Default::default(),
            tokio::sync::oneshot::channel().1,
        );
        let mut oracle = Self {
            parked: Parked::new(machine),
            stop: None,
            control,
            data,
            progress,
            state: State {
                mode: Mode::New,
                progress_mark: false,
                entry_mark: false,
                last_clock: clock,
                settings,
                last_progress: 0,
                last_send: 0,
                sync_peer: None,
                sends_counted: 0,
                downloaded: 0,
                known_tip: 0,
                stalled: Vec::new(),
                pending: BTreeMap::new(),
                evicted: Vec::new(),
            },
        };
        oracle.read();
        // The Rust takes its start height from the validator, which the oracle has not.
        oracle.state.downloaded = height;
        let opened = oracle.state.clone();
        oracle.parked.write(|machine| probe::put(machine, &opened));
        Some(oracle)
    }

    /// A machine brought to the parking place of this state, with its fields put in. `None` where the Rust has no such
    /// place, both marks at once, or no such type.
    pub fn put(state: &State) -> Option<Self> {
        if state.progress_mark && state.entry_mark || !holds(state) {
            return None;
        }
        let mut oracle = Self::open(state.settings, 0, 0)?;
        let at = |kind| Call {
            kind,
            clock: u64::MAX,
            ..Call::default()
        };
        let peer = state.sync_peer.unwrap_or(0);
        let mut way = Vec::new();
        if state.mode != Mode::New {
            way.push(at(kinds::START));
        }
        match state.mode {
            Mode::New => {}
            Mode::Seeking => way.push(at(kinds::PICK)),
            Mode::Ended => way.extend([at(kinds::PICK), at(kinds::END_OF_STREAM)]),
            Mode::Syncing | Mode::Synced => way.push(Call {
                peers: vec![peer],
                ..at(kinds::PICK)
            }),
        }
        if state.progress_mark {
            way.push(at(kinds::PROGRESS));
        } else if state.mode == Mode::Syncing && !state.entry_mark {
            way.push(at(kinds::OTHER_MESSAGE));
        }
        if state.mode == Mode::Synced {
            way.push(Call {
                peer,
                type_id: types::HEADER,
                ..at(kinds::ANNOUNCED)
            });
        }
        for call in way {
            if !matches!(oracle.step(&call), Verdict::Finished(_)) {
                return None;
            }
        }
        oracle.parked.write(|machine| probe::put(machine, state));
        let parked_at = (oracle.state.mode, oracle.state.entry_mark);
        if parked_at != (state.mode, state.entry_mark) {
            return None;
        }
        oracle.state = state.clone();
        oracle.state.stalled.sort_unstable();
        Some(oracle)
    }

    /// What the Rust held after the last finished step.
    pub fn state(&self) -> &State {
        &self.state
    }

    /// Why the Rust has no say in this step, where that is known beforehand.
    fn outside(&self, call: &Call) -> Option<Reason> {
        if !takes(call) {
            return Some(Reason::WideTypes);
        }
        if call.kind == kinds::END_OF_STREAM && self.stop == Some(Stop::Pick) {
            return Some(Reason::EndWithoutPick);
        }
        let no_headers =
            call.kind == kinds::ANNOUNCED && call.type_id == types::HEADER && call.ids.is_empty();
        let from_another = self.state.sync_peer != Some(call.peer);
        (no_headers && from_another).then_some(Reason::EmptyHeaders)
    }

    /// Runs one step. A refused one leaves the machine as it was; after a step out of the domain it has to be put anew.
    pub fn step(&mut self, call: &Call) -> Verdict {
        match self.outside(call) {
            Some(reason) => Verdict::OutOfDomain(reason),
            None => self.run(call),
        }
    }

    /// What the Rust does, also where it has no say.
    pub fn run(&mut self, call: &Call) -> Verdict {
        let before = self.state.clone();
        self.lay_out(call);
        let counts = self.check_counts(call.kind);
        let polled = quiet::quietly(AssertUnwindSafe(|| self.parked.poll()));
        let Ok(polled) = polled else {
            return Verdict::OutOfDomain(Reason::Panic);
        };
        let scene = scene::with(std::mem::take);
        if let Some(surprise) = scene.surprise {
            return Verdict::Lost(surprise);
        }
        if tokio::driver::armed().is_some() || scene.event.is_some() {
            return Verdict::Lost("the wake was not taken");
        }
        self.stop = scene.stop;
        if let Err(surprise) = self.settle(call, &before, polled) {
            return Verdict::Lost(surprise);
        }
        if let Some(number) = self.refusal(&scene) {
            match Self::put(&before) {
                Some(again) => *self = again,
                None => return Verdict::OutOfDomain(Reason::NoSuchPlace),
            }
            return Verdict::Refused(number);
        }
        let [retried, fresh, abandoned, forgotten] = counts;
        Verdict::Finished(Box::new(Observed {
            outcome: self.outcome(call.kind, before.mode),
            retried,
            fresh,
            abandoned,
            forgotten,
            state: self.state.clone(),
            sends: scene.sends,
        }))
    }

    /// How long the Rust's loop takes over one step, with the stand-ins that it calls. Nothing is read off.
    pub fn time(mut self, call: &Call) -> Duration {
        self.lay_out(call);
        let start = std::time::Instant::now();
        let _ = self.parked.poll();
        start.elapsed()
    }

    /// Sets clock, gate and scene, and arms the one wake.
    fn lay_out(&mut self, call: &Call) {
        tokio::driver::set_clock(call.clock);
        tokio::driver::clear_timer();
        tracing::clear();
        self.parked
            .read(|machine| probe::set_gate(machine, call.gate));
        let synced = self.state.mode == Mode::Synced;
        let timer = match call.kind {
            kinds::CHECK if synced => Some(SYNCED_CHECK),
            kinds::CHECK => Some(SYNCING_CHECK),
            kinds::SCHEDULED_TICK if synced => Some(SYNCED_TICK),
            kinds::SCHEDULED_TICK => Some(SYNCING_TICK),
            kinds::SECTION_TICK => Some(SYNCED_SECTIONS),
            _ => None,
        };
        tokio::driver::arm(timer);
        match call.kind {
            kinds::NEEDED => self.control.push(DeliveryControl::NeedModifier {
                type_id: byte(call.type_id),
                id: call.ids.first().copied().unwrap_or_default(),
            }),
            kinds::REORG => self.control.push(DeliveryControl::Reorg {
                fork_point: call.fork,
                old_tip: call.height,
                new_tip: call.height,
            }),
            kinds::RECEIVED => self.data.push(DeliveryData::Received(call.ids.clone())),
            kinds::EVICTED => self.data.push(DeliveryData::Evicted(call.ids.clone())),
            kinds::PROGRESS => self.progress.push(call.height),
            _ => {}
        }
        let scene = Scene {
            call: call.clone(),
            pick: call.kind == kinds::PICK,
            event: self.event(call),
            entry_send: Some(call.kind != kinds::SEND_FAILURE)
                .filter(|_| self.stop == Some(Stop::EntrySend)),
            ..Scene::default()
        };
        scene::with(|current| *current = scene);
    }

    /// The event that the transport hands out in this step, if any; an inner `None` ends the stream.
    fn event(&self, call: &Call) -> Option<Option<ProtocolEvent>> {
        let peer_id = PeerId(call.peer);
        let message = |message| Some(Some(ProtocolEvent::Message { peer_id, message }));
        match call.kind {
            kinds::ANNOUNCED => message(ProtocolMessage::Inv {
                modifier_type: byte(call.type_id),
                ids: call.ids.clone(),
            }),
            kinds::SYNC_INFO => message(ProtocolMessage::SyncInfo { body: vec![1] }),
            kinds::OTHER_MESSAGE => match call.type_id % 5 {
                0 => message(ProtocolMessage::GetPeers),
                1 => message(ProtocolMessage::Peers { body: Vec::new() }),
                2 => message(ProtocolMessage::ModifierResponse { body: Vec::new() }),
                3 => message(ProtocolMessage::Unknown {
                    code: byte(call.type_id),
                    body: Vec::new(),
                }),
                _ => message(ProtocolMessage::ModifierRequest {
                    modifier_type: byte(call.type_id),
                    ids: call.ids.clone(),
                }),
            },
            kinds::LOST_PEER => Some(Some(ProtocolEvent::PeerDisconnected {
                peer_id,
                reason: String::new(),
            })),
            kinds::END_OF_STREAM => Some(None),
            kinds::PICK if self.stop == Some(Stop::Wait) => {
                Some(Some(ProtocolEvent::PeerConnected { peer_id }))
            }
            _ => None,
        }
    }

    /// Retried, fresh, abandoned and forgotten, from a check on a copy.
    fn check_counts(&self, kind: u8) -> [u32; 4] {
        if kind != kinds::CHECK {
            return [0; 4];
        }
        let check = self.parked.read(probe::check_of_copy);
        let ids = |ids: &[Id]| ids.len() as u32;
        [
            check.retries.len() as u32,
            ids(&check.fresh),
            ids(&check.abandoned),
            ids(&check.forgotten),
        ]
    }

    fn read(&mut self) {
        let Self { parked, state, .. } = self;
        parked.read(|machine| probe::read(machine, state));
    }

    /// Reads the machine off, if it stands where the driver expects it.
    fn settle(
        &mut self,
        call: &Call,
        before: &State,
        polled: Poll<()>,
    ) -> Result<(), &'static str> {
        self.read();
        self.state.last_clock = call.clock;
        self.state.entry_mark = self.stop == Some(Stop::EntrySend);
        let place = match (polled, self.stop, tokio::driver::waiting_timer()) {
            (Poll::Ready(()), _, _) => Some(Mode::Ended),
            (_, Some(Stop::Pick | Stop::Wait), _) => Some(Mode::Seeking),
            (_, Some(Stop::EntrySend), _) => Some(Mode::Syncing),
            (_, None, Some(SYNCING_SWEEP)) => Some(Mode::Syncing),
            (_, None, Some(SYNCED_SECTIONS)) => Some(Mode::Synced),
            _ => None,
        };
        let mode = place.ok_or("the Rust waits at an unknown place")?;
        self.state.mode = mode;
        let entered = tracing::noted("starting header sync")
            || tracing::noted("peer is ahead, resuming sync");
        // The mark is a local of the loop: it is known from what sets it, and shown by a progress step's record.
        let sends = tracing::noted("second batch SyncInfo");
        let syncing_progress = call.kind == kinds::PROGRESS && before.mode == Mode::Syncing;
        if sends != (syncing_progress && !before.progress_mark) {
            return Err("the progress mark is not what the driver holds it for");
        }
        self.state.progress_mark = mode == Mode::Syncing
            && !entered
            && call.kind != kinds::SCHEDULED_TICK
            && (before.progress_mark || syncing_progress);
        Ok(())
    }

    fn refusal(&self, scene: &Scene) -> Option<u32> {
        if scene.outside_view {
            Some(9)
        } else if self.state.pending.len() + self.state.evicted.len() > limits::TRACKED {
            Some(10)
        } else if self.state.stalled.len() > limits::STALLED {
            Some(11)
        } else {
            None
        }
    }

    /// The outcome, by the Rust's records where its fields don't show it.
    fn outcome(&self, kind: u8, before: Mode) -> u32 {
        let noted = tracing::noted;
        if kind == kinds::END_OF_STREAM {
            outcomes::END_OF_STREAM
        } else if noted("peer reports no more headers") || noted("caught up with peer") {
            outcomes::SYNCED
        } else if noted("peer is ahead, resuming sync") {
            outcomes::BEHIND_PEER
        } else if noted("sync stalled, rotating peer") {
            outcomes::STALLED
        } else if before.has_sync_peer() && self.state.mode == Mode::Seeking {
            outcomes::PEER_GONE
        } else {
            outcomes::CONTINUE
        }
    }
}
