//! delivery.rs: `DeliveryTracker` (document 01, "Corners, file by file").

use crate::Run;
use keeper_values::numbers::types;
use keeper_values::{Id, Request, Settings, TypeId};
use std::collections::BTreeMap;

/// "Expired: clock − stamp >= timeout."
pub fn expired(settings: &Settings, clock: u64, stamp: u64) -> bool {
    clock - stamp >= u64::from(settings.timeout)
}

/// "an expired transaction is forgotten"
pub fn forgotten_when_undelivered(type_id: TypeId) -> bool {
    type_id == types::TRANSACTION
}

/// "at checks >= `max_checks` the id is abandoned"
pub fn given_up(settings: &Settings, checks: u32) -> bool {
    checks >= settings.max_checks
}

/// The stamp of a retried request: "stamp = this clock".
pub fn retried_stamp(_: &Settings, clock: u64, _: u64) -> u64 {
    clock
}

/// A request that a check wants to see again.
#[derive(Debug, Clone, PartialEq, Eq)]
pub struct Retry {
    pub id: Id,
    pub type_id: TypeId,
    pub failed_peer: u64,
}

/// What a check hands out.
#[derive(Debug, Clone, PartialEq, Eq, Default)]
pub struct Check {
    pub retries: Vec<Retry>,
    pub fresh: Vec<Id>,
    pub abandoned: u32,
    pub forgotten: u32,
}

pub fn check_timeouts(run: &mut Run) -> Check {
    let rules = run.rules;
    let clock = run.inputs.clock;
    let settings = run.state.settings;
    let mut check = Check::default();
    run.state.pending.retain(|id, request| {
        if !(rules.expired)(&settings, clock, request.stamp) {
            return true;
        }
        if (rules.forgotten_when_undelivered)(request.type_id) {
            check.forgotten += 1;
            return false;
        }
        request.checks += 1;
        if (rules.given_up)(&settings, request.checks) {
            check.abandoned += 1;
            return false;
        }
        request.stamp = (rules.retried_stamp)(&settings, clock, request.stamp);
        check.retries.push(Retry {
            id: *id,
            type_id: request.type_id,
            failed_peer: request.peer,
        });
        true
    });
    // "The next check hands that list out whole as fresh."
    check.fresh = std::mem::take(&mut run.state.evicted);
    check
}

pub fn mark_requested(run: &mut Run, ids: &[Id], peer: u64, type_id: TypeId) {
    for id in ids {
        let request = Request {
            peer,
            type_id,
            stamp: run.inputs.clock,
            checks: 0,
        };
        run.state.pending.insert(*id, request);
    }
}

/// A retried request moves to the peer now asked; all else of it stays.
pub fn mark_retried(run: &mut Run, ids: &[Id], peer: u64) {
    for id in ids {
        if let Some(request) = run.state.pending.get_mut(id) {
            request.peer = peer;
        }
    }
}

pub fn mark_received(run: &mut Run, ids: &[Id]) {
    for id in ids {
        run.state.pending.remove(id);
    }
}

/// "removes pending ids and appends every given id to the evicted list, repeats included"
pub fn schedule_rerequest(run: &mut Run, ids: &[Id]) {
    for id in ids {
        run.state.pending.remove(id);
    }
    run.state.evicted.extend(ids);
}

/// "drops that peer's ids and gives back the non-transactions", by type.
pub fn purge_peer(run: &mut Run, peer: u64) -> BTreeMap<TypeId, Vec<Id>> {
    let mut orphans = BTreeMap::<TypeId, Vec<Id>>::new();
    run.state.pending.retain(|id, request| {
        if request.peer == peer && request.type_id != types::TRANSACTION {
            orphans.entry(request.type_id).or_default().push(*id);
        }
        request.peer != peer
    });
    orphans
}

/// "spares the evicted list"
pub fn purge_all(run: &mut Run) {
    run.state.pending.clear();
}
