//! What became of each id in a step: read off the records before and after it, the commands and the surroundings.
//! Nothing is worked out anew here; where facts alone can't tell, the words stay neutral.

use crate::scenario::Wake;
use crate::sending::{SendFate, Sending, Sent};
use crate::standing::Standing;
use crate::world::World;
use request_keeper::{Answer, Id, Mode, ModifierType, Outcome, Peer, PendingRequest};
use std::collections::BTreeSet;

/// All that is known of a finished step.
pub struct Facts<'a> {
    pub clock: u64,
    pub wake: &'a Wake,
    pub world: &'a World,
    pub before: &'a Standing,
    pub after: &'a Standing,
    /// What became of the last sync info before the step; `None` if there was none since the opening.
    pub sync_info: Option<SendFate>,
    pub answer: &'a Answer,
    pub sendings: &'a [Sending],
}

/// What became of an id.
#[derive(Debug, Clone, PartialEq, Eq)]
pub struct Fate {
    pub id: Id,
    pub became: Became,
}

#[derive(Debug, Clone, PartialEq, Eq)]
pub enum Became {
    /// It went on order.
    Asked { of: Peer, why: Asked },
    /// It could have gone on order.
    NotAsked(NotAsked),
    /// A check found it not expired.
    Waits { peer: Peer, age: u64 },
    /// A check found it expired.
    Retried(Retry),
    /// A check found it expired once too often.
    GivenUp { peer: Peer, age: u64, checks: u32 },
    /// A check found the transaction expired.
    Forgotten { peer: Peer, age: u64 },
    /// It came in while on order.
    Delivered { peer: Peer, age: u64 },
    /// It came in and was not on order.
    NotOnOrder,
    /// It has to come again; whom it was on order from, if it was.
    Evicted { from: Option<Peer> },
    /// A reorg ended its request.
    Purged { peer: Peer },
    /// Its request ended with the loss of the sync peer.
    Orphaned { peer: Peer },
    /// Its peer is lost, and it stays on order.
    Left { peer: Peer },
}

/// A retry, by the records before and after.
#[derive(Debug, Clone, PartialEq, Eq)]
pub struct Retry {
    pub age: u64,
    /// After the step.
    pub checks: u32,
    /// The failed peer.
    pub from: Peer,
    /// The target.
    pub to: Peer,
    pub aim: Aim,
}

/// Why a retry has its target.
#[derive(Debug, Clone, PartialEq, Eq)]
pub enum Aim {
    /// The gate is shut: it stays with the failed peer, and is not sent.
    GateShut,
    /// The first listed peer other than the failed one that has not stalled; the stalled ones that it passes over.
    Unstalled(Vec<Peer>),
    /// The first listed peer other than the failed one, though all that are listed have stalled: these.
    AllStalled(Vec<Peer>),
    /// The first of these, all the listed peers other than the failed one, though they have stalled. The failed one is listed
    /// and has not.
    OthersStalled(Vec<Peer>),
    /// The failed peer, since no other is listed.
    NoOther,
    /// The failed peer, since none is listed.
    NoPeer,
    /// No fact explains it.
    Unexplained,
}

/// Why an id went on order.
#[derive(Debug, Clone, Copy, PartialEq, Eq)]
pub enum Asked {
    Announced,
    Needed,
    /// A section missing in the window.
    Missing,
    /// It was on order from the sync peer that was lost.
    Orphan,
    /// It was evicted before.
    Fresh,
}

/// Why an id did not go on order.
#[derive(Debug, Clone, Copy, PartialEq, Eq)]
pub enum NotAsked {
    GateShut,
    NoPeer,
    Pending(Peer),
    Stored,
    /// Its type is none that announcements are followed for.
    Type(ModifierType),
    /// Transactions of a lost peer are not asked for again.
    Transaction,
    /// No fact explains it.
    Unexplained,
}

impl Facts<'_> {
    /// Whom a request command of this step asks for an id.
    fn asked_of(&self, id: &Id) -> Option<Peer> {
        let asks = |sending: &&Sending| match &sending.what {
            Sent::Request(_, ids) => ids.contains(id),
            Sent::Announcement(_) | Sent::SyncInfo => false,
        };
        self.sendings.iter().find(asks).map(|sending| sending.to)
    }

    fn age(&self, request: &PendingRequest) -> u64 {
        self.clock.saturating_sub(request.stamp)
    }

    /// The surroundings' part in an id's not going on order.
    fn hindrance(&self, id: &Id) -> NotAsked {
        if !self.world.gate_open {
            NotAsked::GateShut
        } else if let Some(request) = self.after.pending.get(id) {
            NotAsked::Pending(request.peer)
        } else if self.world.has(id) {
            NotAsked::Stored
        } else {
            NotAsked::Unexplained
        }
    }

    /// The same where the first listed peer is to be asked.
    fn hindrance_at_first_peer(&self, id: &Id) -> NotAsked {
        if self.world.peers.is_empty() {
            NotAsked::NoPeer
        } else {
            self.hindrance(id)
        }
    }

    fn asked(&self, id: &Id, why: Asked) -> Option<Became> {
        self.asked_of(id).map(|of| Became::Asked { of, why })
    }
}

/// What became of each id that the step touched, in the order in which the step did it.
pub fn fates(facts: &Facts<'_>) -> Vec<Fate> {
    match facts.wake {
        Wake::Needed(_, id) => vec![needed(facts, id)],
        Wake::Announced(_, modifier_type, ids) if !ids.is_empty() => {
            announced(facts, *modifier_type, ids)
        }
        Wake::Lost(peer) => lost(facts, *peer),
        Wake::Received(ids) => once(ids).map(|id| received(facts, id)).collect(),
        Wake::Evicted(ids) => once(ids).map(|id| evicted(facts, id)).collect(),
        Wake::Check => check(facts),
        Wake::Reorg(_) => {
            let mut fates: Vec<Fate> = facts.before.pending.values().map(purged).collect();
            fates.extend(sections(facts));
            fates
        }
        _ => sections(facts).collect(),
    }
}

/// Each entry the first time that it stands in a list.
fn once<T: Copy + Ord>(entries: &[T]) -> impl Iterator<Item = &T> {
    let mut seen = BTreeSet::new();
    entries.iter().filter(move |entry| seen.insert(**entry))
}

fn needed(facts: &Facts<'_>, id: &Id) -> Fate {
    let asked = facts.asked(id, Asked::Needed);
    let became = asked.unwrap_or_else(|| Became::NotAsked(facts.hindrance(id)));
    Fate { id: *id, became }
}

fn announced(facts: &Facts<'_>, modifier_type: ModifierType, ids: &[Id]) -> Vec<Fate> {
    let followed = matches!(
        modifier_type,
        ModifierType::TRANSACTION
            | ModifierType::HEADER
            | ModifierType::BLOCK_TRANSACTIONS
            | ModifierType::AD_PROOFS
            | ModifierType::EXTENSION
    );
    let became = |id: &Id| match facts.asked(id, Asked::Announced) {
        Some(became) => became,
        None if !followed => Became::NotAsked(NotAsked::Type(modifier_type)),
        None => Became::NotAsked(facts.hindrance(id)),
    };
    let fate = |id: &Id| Fate {
        id: *id,
        became: became(id),
    };
    once(ids).map(fate).collect()
}

fn received(facts: &Facts<'_>, id: &Id) -> Fate {
    let became = match facts.before.pending.get(id) {
        Some(request) => Became::Delivered {
            peer: request.peer,
            age: facts.age(request),
        },
        None => Became::NotOnOrder,
    };
    Fate { id: *id, became }
}

fn evicted(facts: &Facts<'_>, id: &Id) -> Fate {
    let from = facts.before.pending.get(id).map(|request| request.peer);
    Fate {
        id: *id,
        became: Became::Evicted { from },
    }
}

fn purged(request: &PendingRequest) -> Fate {
    Fate {
        id: request.id,
        became: Became::Purged { peer: request.peer },
    }
}

/// Sections that went on order.
fn sections<'a>(facts: &'a Facts<'_>) -> impl Iterator<Item = Fate> + 'a {
    let requests = facts
        .sendings
        .iter()
        .filter_map(|sending| match &sending.what {
            Sent::Request(_, ids) => Some((sending.to, ids)),
            Sent::Announcement(_) | Sent::SyncInfo => None,
        });
    requests.flat_map(|(of, ids)| {
        let why = Asked::Missing;
        once(ids).map(move |id| Fate {
            id: *id,
            became: Became::Asked { of, why },
        })
    })
}

fn lost(facts: &Facts<'_>, peer: Peer) -> Vec<Fate> {
    let purges =
        facts.before.mode == Mode::Syncing && facts.answer.outcome == Outcome::SyncPeerGone;
    let requests = facts.before.pending.values();
    let mut fates = Vec::new();
    for request in requests.filter(|request| request.peer == peer) {
        let id = request.id;
        if !purges {
            fates.push(Fate {
                id,
                became: Became::Left { peer },
            });
            continue;
        }
        let again = match facts.asked(&id, Asked::Orphan) {
            Some(became) => became,
            None if request.modifier_type == ModifierType::TRANSACTION => {
                Became::NotAsked(NotAsked::Transaction)
            }
            None => Became::NotAsked(facts.hindrance_at_first_peer(&id)),
        };
        let became = Became::Orphaned { peer };
        fates.push(Fate { id, became });
        fates.push(Fate { id, became: again });
    }
    fates
}

/// Whether a check has ended a request and the evicted list has brought the id back in the same step.
fn entered_again(facts: &Facts<'_>, now: &PendingRequest) -> bool {
    now.checks == 0 && facts.asked_of(&now.id).is_some()
}

/// Why a retry goes from one peer to another, or to the same again, by the listed and the stalled peers.
fn aim(listed: &[Peer], stalled: &[Peer], from: Peer, to: Peer) -> Aim {
    let has_stalled = |peer: &Peer| stalled.contains(peer);
    let others = once(listed).copied().filter(|peer| *peer != from);
    let others: Vec<Peer> = others.collect();
    if to == from {
        return if listed.is_empty() {
            Aim::NoPeer
        } else if others.is_empty() {
            Aim::NoOther
        } else {
            Aim::Unexplained
        };
    }
    let Some(place) = others.iter().position(|peer| *peer == to) else {
        return Aim::Unexplained;
    };
    let passed = &others[..place];
    if !has_stalled(&to) && passed.iter().all(has_stalled) {
        Aim::Unstalled(passed.to_vec())
    } else if !passed.is_empty() || !others.iter().all(has_stalled) {
        Aim::Unexplained
    } else if listed.iter().all(has_stalled) {
        Aim::AllStalled(once(listed).copied().collect())
    } else {
        Aim::OthersStalled(others)
    }
}

fn retried(facts: &Facts<'_>, was: &PendingRequest, now: &PendingRequest) -> Retry {
    let (from, to) = (was.peer, now.peer);
    let aim = if facts.world.gate_open {
        aim(&facts.world.peers, &facts.before.stalled, from, to)
    } else {
        Aim::GateShut
    };
    Retry {
        age: facts.age(was),
        checks: now.checks,
        from,
        to,
        aim,
    }
}

fn checked(facts: &Facts<'_>, was: &PendingRequest) -> Became {
    let (peer, age) = (was.peer, facts.age(was));
    let now = facts.after.pending.get(&was.id);
    match now.filter(|now| !entered_again(facts, now)) {
        None if was.modifier_type == ModifierType::TRANSACTION => Became::Forgotten { peer, age },
        None => Became::GivenUp {
            peer,
            age,
            checks: was.checks.saturating_add(1),
        },
        Some(now) if now.checks > was.checks => Became::Retried(retried(facts, was, now)),
        Some(_) => Became::Waits { peer, age },
    }
}

fn fresh(facts: &Facts<'_>, id: &Id) -> Became {
    let now = facts.after.pending.get(id);
    match now.filter(|now| entered_again(facts, now)) {
        Some(now) => Became::Asked {
            of: now.peer,
            why: Asked::Fresh,
        },
        None => Became::NotAsked(facts.hindrance_at_first_peer(id)),
    }
}

fn check(facts: &Facts<'_>) -> Vec<Fate> {
    let checked = facts.before.pending.values().map(|was| Fate {
        id: was.id,
        became: checked(facts, was),
    });
    let fresh = once(&facts.before.evicted).map(|id| Fate {
        id: *id,
        became: fresh(facts, id),
    });
    checked.chain(fresh).collect()
}

#[cfg(test)]
mod tests {
    use super::{aim, Aim};
    use keeper_reference::sync::{former_target, retry_target};
    use request_keeper::Peer;

    fn peers(numbers: &[u64]) -> Vec<Peer> {
        numbers.iter().copied().map(Peer).collect()
    }

    /// Listed, stalled, failed peer, target, why.
    type Case<'c> = (&'c [u64], &'c [u64], u64, u64, Aim);

    fn aimed(listed: &[u64], stalled: &[u64], from: u64, to: u64) -> Aim {
        aim(&peers(listed), &peers(stalled), Peer(from), Peer(to))
    }

    #[test]
    fn each_reason_is_found() {
        let unstalled = |passed: &[u64]| Aim::Unstalled(peers(passed));
        let all = |listed: &[u64]| Aim::AllStalled(peers(listed));
        let others = |others: &[u64]| Aim::OthersStalled(peers(others));
        let cases: [Case<'_>; 15] = [
            (&[], &[], 4, 4, Aim::NoPeer),
            (&[], &[4], 4, 4, Aim::NoPeer),
            (&[4], &[], 4, 4, Aim::NoOther),
            (&[4, 4], &[4], 4, 4, Aim::NoOther),
            (&[4, 5], &[], 4, 5, unstalled(&[])),
            (&[5, 4], &[4, 9], 4, 5, unstalled(&[])),
            (&[4, 5, 6], &[6], 4, 5, unstalled(&[])),
            (&[5, 4, 6], &[5], 4, 6, unstalled(&[5])),
            (&[5, 7, 5, 6], &[7, 5], 4, 6, unstalled(&[5, 7])),
            (&[4, 5], &[5], 4, 5, others(&[5])),
            (&[5, 5, 4], &[4], 5, 4, others(&[4])),
            (&[5, 4, 6], &[4_000, 6, 5], 4, 5, others(&[5, 6])),
            (&[5], &[5], 4, 5, all(&[5])),
            (&[4, 5, 4, 6], &[6, 5, 4], 4, 5, all(&[4, 5, 6])),
            (&[5, 6], &[6, 5], 4, 5, all(&[5, 6])),
        ];
        for (listed, stalled, from, to, expected) in cases {
            let case = format!("{listed:?}, {stalled:?} stalled, {from} -> {to}");
            assert_eq!(aimed(listed, stalled, from, to), expected, "{case}");
        }
    }

    /// All lists of up to three of three peers, with any of them stalled: the rule's target has a reason, and no other has.
    /// Where F-2's was another, the reason is that the others have stalled and the failed one has not.
    #[test]
    fn the_target_alone_is_explained() {
        let known = [4, 5, 6];
        let mut lists = vec![vec![]];
        for length in 0..3 {
            let longest = lists.iter().filter(|list: &&Vec<u64>| list.len() == length);
            let longer = longest.flat_map(|list| known.map(|peer| [&list[..], &[peer]].concat()));
            let longer: Vec<_> = longer.collect();
            lists.extend(longer);
        }
        assert_eq!(lists.len(), 1 + 3 + 9 + 27);
        for listed in &lists {
            for marks in 0..8 {
                let stalled: Vec<u64> = known
                    .into_iter()
                    .filter(|peer| marks >> (peer - 4) & 1 == 1)
                    .collect();
                for (from, to) in known.iter().flat_map(|from| known.map(|to| (*from, to))) {
                    let case = format!("{listed:?} {stalled:?} {from} {to}");
                    let right = retry_target(&stalled, listed, from) == to;
                    let found = aimed(listed, &stalled, from, to);
                    assert_eq!(found != Aim::Unexplained, right, "{case}");
                    let new = right && former_target(&stalled, listed, from) != to;
                    assert_eq!(matches!(found, Aim::OthersStalled(_)), new, "{case}");
                }
            }
        }
    }
}
