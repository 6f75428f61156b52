//! Why a step came to what it came to, in words, by the rules of document 01. Each sentence rests on what stood before
//! the step, what stands after it, and what was sent.

use crate::fates::Facts;
use crate::scenario::{Info, Names, Wake};
use crate::sending::{SendFate, Sending, Sent};
use crate::text::{grouped, mode_word};
use request_keeper::{Mode, ModifierType, Outcome, Peer, Settings};

/// A label and a sentence.
type Reason = (&'static str, String);

/// The reasons of a step as a whole.
pub fn reasons(facts: &Facts<'_>, settings: Settings, names: &Names) -> Vec<Reason> {
    let telling = Telling {
        facts,
        settings,
        names,
    };
    let own = match facts.wake {
        Wake::Pick => telling.pick(),
        Wake::SyncInfo(from, info) => telling.sync_info(*from, info.as_ref()),
        Wake::Announced(from, modifier_type, ids) if ids.is_empty() => {
            telling.empty_announcement(*from, *modifier_type)
        }
        Wake::Lost(peer) => telling.lost(*peer),
        Wake::ScheduledTick => telling.tick(),
        Wake::Message => Some("no step of the keeper depends on it".to_string()),
        Wake::SendFailure => {
            Some("the entry's sync info did not go out: the sync peer is dropped".to_string())
        }
        Wake::EndOfStream if facts.before.mode == Mode::Seeking => {
            Some("the stream ended while seeking: no step follows".to_string())
        }
        _ => None,
    };
    let mut reasons: Vec<Reason> = own.into_iter().map(|why| ("why", why)).collect();
    reasons.extend(telling.unsent().map(|why| ("not sent", why)));
    reasons.extend(telling.no_sections().map(|why| ("not asked", why)));
    reasons.extend(telling.height().map(|why| ("height", why)));
    reasons.extend(telling.known_tip().map(|why| ("tip", why)));
    reasons.extend(telling.mode().map(|why| ("mode", why)));
    reasons
}

struct Telling<'a> {
    facts: &'a Facts<'a>,
    settings: Settings,
    names: &'a Names,
}

impl Telling<'_> {
    fn peer(&self, peer: Peer) -> String {
        self.names.show_peer(peer)
    }

    fn pick(&self) -> Option<String> {
        let (before, after) = (self.facts.before, self.facts.after);
        let Some(chosen) = after.sync_peer else {
            return Some("no peer is listed: nobody can be chosen".to_string());
        };
        let name = self.peer(chosen);
        if before.stalled.is_empty() {
            return Some(format!("{name} is the first listed peer"));
        }
        let stalled = self.names.show_peers(&before.stalled);
        Some(if before.stalled.contains(&chosen) {
            format!("every listed peer has stalled ({stalled}): that is forgotten, and {name} is the first listed")
        } else {
            format!("{name} is the first listed peer that has not stalled (stalled: {stalled})")
        })
    }

    fn sync_info(&self, from: Peer, info: Option<&Info>) -> Option<String> {
        let ours = self.facts.world.chain_height;
        let name = self.peer(from);
        let Some(info) = info else {
            return Some("it could not be parsed: a reply is due all the same".to_string());
        };
        let Some(tip) = info.tip else {
            return Some(format!("{name} names no tip: a reply is due"));
        };
        let is_sync_peer = self.facts.before.sync_peer == Some(from);
        Some(match self.facts.answer.outcome {
            Outcome::Synced => {
                format!("the sync peer's tip {tip} is not above our {ours}: we have what it has")
            }
            Outcome::BehindPeer => format!(
                "{name}'s tip {tip} is more than one above our {ours}: it is ahead, and becomes the sync peer"
            ),
            _ if tip > ours => {
                format!("{name}'s tip {tip} is one above our {ours}: one block ahead is no reason to switch")
            }
            _ if !is_sync_peer => {
                format!("{name}'s tip {tip} is not above our {ours}, but {name} is not the sync peer")
            }
            _ => format!("{name}'s tip is {tip}, ours is {ours}"),
        })
    }

    fn empty_announcement(&self, from: Peer, modifier_type: ModifierType) -> Option<String> {
        if modifier_type != ModifierType::HEADER {
            return None;
        }
        let name = self.peer(from);
        Some(if self.facts.before.sync_peer == Some(from) {
            format!(
                "{name} is the sync peer: its empty list of headers says that there are no more"
            )
        } else {
            format!("{name} has no headers for us, but {name} is not the sync peer: it may have no chain yet")
        })
    }

    fn lost(&self, peer: Peer) -> Option<String> {
        let (name, mode) = (self.peer(peer), self.facts.before.mode);
        Some(match (self.facts.answer.outcome, mode) {
            (Outcome::SyncPeerGone, Mode::Syncing) => {
                format!("{name} was the sync peer, in syncing: what was on order from it is asked for again")
            }
            (Outcome::SyncPeerGone, _) => {
                format!(
                    "{name} was the sync peer, in synced: what was on order from it stays pending"
                )
            }
            _ => format!("{name} is not the sync peer: nothing changes"),
        })
    }

    fn tick(&self) -> Option<String> {
        let (before, clock) = (self.facts.before, self.facts.clock);
        if before.mode == Mode::Synced {
            let gone = self.facts.answer.outcome == Outcome::SyncPeerGone;
            return gone.then(|| "no peer is listed: a new sync peer has to be sought".to_string());
        }
        let quiet = grouped(clock.saturating_sub(before.last_progress));
        let limit = grouped(self.settings.stall_timeout);
        Some(if self.facts.answer.outcome == Outcome::Stalled {
            format!("no progress for {quiet} ms, above the stall timeout of {limit}: the sync peer has stalled")
        } else {
            format!("the last progress was {quiet} ms ago, not above the stall timeout of {limit}")
        })
    }

    /// Whether the step is one that tries to send a sync info.
    fn tries_to_send(&self) -> bool {
        let (before, after) = (self.facts.before, self.facts.after);
        match self.facts.wake {
            Wake::Pick => after.mode == Mode::Syncing,
            Wake::SyncInfo(..) => self.facts.answer.outcome != Outcome::Synced,
            Wake::ScheduledTick => self.facts.answer.outcome != Outcome::SyncPeerGone,
            Wake::Progress => before.mode == Mode::Syncing,
            _ => false,
        }
    }

    /// Why no sync info went out where one might have.
    fn unsent(&self) -> Option<String> {
        let sync_info = |sending: &Sending| sending.what == Sent::SyncInfo;
        if !self.tries_to_send() || self.facts.sendings.iter().any(sync_info) {
            return None;
        }
        let since = self.facts.clock.saturating_sub(self.facts.before.last_send);
        let interval = self.settings.min_sync_send_interval;
        if since < u64::from(interval) {
            let (since, interval) = (grouped(since), grouped(interval));
            let last = match self.facts.sync_info {
                None => format!("none has gone out yet, and the opening was {since} ms ago"),
                Some(SendFate::Sent) => format!("the last one went out {since} ms ago"),
                Some(_) => format!("the last one failed {since} ms ago"),
            };
            return Some(format!(
                "no sync info: {last}, below the interval of {interval}"
            ));
        }
        Some(
            "no sync info: progress had its one since the last entry or scheduled tick".to_string(),
        )
    }

    /// Whether the step asks for missing sections of the window.
    fn asks_for_sections(&self) -> bool {
        let (before, after) = (self.facts.before, self.facts.after);
        match self.facts.wake {
            Wake::Progress | Wake::SectionTick | Wake::Reorg(_) => true,
            _ => before.mode == Mode::Syncing && after.mode == Mode::Synced,
        }
    }

    /// Why no section was asked for, if the surroundings are the reason.
    fn no_sections(&self) -> Option<String> {
        if !self.asks_for_sections() || self.facts.after.downloaded >= self.facts.world.chain_height
        {
            return None;
        }
        if self.facts.world.peers.is_empty() {
            return Some("no peer is listed: no section is asked for".to_string());
        }
        let shut = !self.facts.world.gate_open;
        shut.then(|| "the gate is shut: no section is asked for".to_string())
    }

    /// What the height after the downloaded one lacks.
    fn obstacle(&self) -> String {
        let world = self.facts.world;
        let downloaded = self.facts.after.downloaded;
        let next = downloaded.saturating_add(1);
        if downloaded >= world.chain_height {
            return "our chain ends here".to_string();
        }
        let Some(sections) = world.sections(next) else {
            return format!("the header of {next} is absent");
        };
        let missing = sections
            .iter()
            .map(|(_, id)| id)
            .filter(|id| !world.has(id));
        format!("{next} lacks {}", self.names.show_ids(missing))
    }

    /// How the downloaded height has changed, or why it has not where that was the step's purpose.
    fn height(&self) -> Option<String> {
        let (was, now) = (self.facts.before.downloaded, self.facts.after.downloaded);
        let told = matches!(
            self.facts.wake,
            Wake::Start | Wake::Received(_) | Wake::Reorg(_)
        );
        if was != now {
            let obstacle = self.obstacle();
            return Some(match self.facts.wake {
                Wake::Reorg(fork) => {
                    format!("downloaded {was} -> {now}: the fork point is {fork}; {obstacle}")
                }
                _ => format!(
                    "downloaded {was} -> {now}: all sections up to there are stored; {obstacle}"
                ),
            });
        }
        let stays = told && now < self.facts.world.chain_height;
        stays.then(|| format!("downloaded stays {now}: {}", self.obstacle()))
    }

    fn known_tip(&self) -> Option<String> {
        let (was, now) = (self.facts.before.known_tip, self.facts.after.known_tip);
        (was != now).then(|| format!("the highest tip that a peer has named: {was} -> {now}"))
    }

    fn mode(&self) -> Option<String> {
        let (before, after) = (self.facts.before, self.facts.after);
        if (before.mode, before.sync_peer) == (after.mode, after.sync_peer) {
            return None;
        }
        let (was, now) = (mode_word(before.mode), mode_word(after.mode));
        let peer = after
            .sync_peer
            .map(|peer| format!(", sync peer {}", self.peer(peer)));
        Some(format!("{was} -> {now}{}", peer.unwrap_or_default()))
    }
}
