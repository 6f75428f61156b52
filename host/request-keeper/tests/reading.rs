//! What can be read off a keeper is what the steps have put there.

use request_keeper::{
    Id, Mode, ModifierType, Outcome, Peer, PendingRequest, Question, Refusal, RequestKeeper,
    Settings, Step, Surroundings,
};
use std::collections::BTreeSet;

const SETTINGS: Settings = Settings {
    timeout: 10_000,
    max_checks: 3,
    min_sync_send_interval: 200,
    stall_timeout: 60_000,
};
const PEERS: &[Peer] = &[Peer(0x0102_0304_0506_0708), Peer(5)];

fn now<'a>(clock: u64) -> Surroundings<'a> {
    Surroundings {
        peers: PEERS,
        ..Surroundings::at(clock)
    }
}

fn step(keeper: &mut RequestKeeper, step: Step<'_>, clock: u64) -> Outcome {
    let finished = keeper.step(step, &now(clock)).expect("finished");
    let outcome = finished.answer.outcome;
    let _ = finished.send(|_| Ok::<(), ()>(()));
    outcome
}

/// In syncing from the first peer, with a header and a transaction on order from peer 9.
fn with_requests() -> RequestKeeper {
    let mut keeper = RequestKeeper::open(SETTINGS, 1_000, 5).expect("opened");
    step(&mut keeper, Step::Start, 1_000);
    step(&mut keeper, Step::Pick, 2_000);
    for (modifier_type, number, clock) in [
        (ModifierType::HEADER, 0xbb, 3_000),
        (ModifierType::TRANSACTION, 0xaa, 4_000),
    ] {
        let announced = Step::Announced {
            from: Peer(9),
            modifier_type,
            ids: &[[number; 32]],
        };
        step(&mut keeper, announced, clock);
    }
    keeper
}

#[test]
fn settings_and_clocks() {
    let keeper = with_requests();
    assert_eq!(keeper.settings(), SETTINGS);
    assert_eq!((keeper.last_progress(), keeper.last_send()), (2_000, 2_000));
    assert_eq!(keeper.evicted().count() + keeper.stalled().count(), 0);
}

#[test]
fn pending_requests_with_their_peer_stamp_and_checks() {
    let mut keeper = with_requests();
    let header = PendingRequest {
        id: [0xbb; 32],
        peer: Peer(9),
        modifier_type: ModifierType::HEADER,
        stamp: 3_000,
        checks: 0,
    };
    let transaction = PendingRequest {
        id: [0xaa; 32],
        modifier_type: ModifierType::TRANSACTION,
        stamp: 4_000,
        ..header
    };
    let pending: Vec<_> = keeper.pending().collect();
    assert_eq!(pending, [transaction, header]);

    step(&mut keeper, Step::Check, 13_500);
    let retried = PendingRequest {
        peer: PEERS[0],
        stamp: 13_500,
        checks: 1,
        ..header
    };
    let pending: Vec<_> = keeper.pending().collect();
    assert_eq!(pending, [transaction, retried]);
}

#[test]
fn evicted_ids_in_their_order_with_repeats() {
    let mut keeper = with_requests();
    let ids: [Id; 3] = [[0xbb; 32], [1; 32], [0xbb; 32]];
    step(&mut keeper, Step::Evicted { ids: &ids }, 5_000);
    step(&mut keeper, Step::Evicted { ids: &[[7; 32]] }, 5_000);
    let evicted: Vec<_> = keeper.evicted().copied().collect();
    assert_eq!(evicted, [[0xbb; 32], [1; 32], [0xbb; 32], [7; 32]]);
    assert_eq!(keeper.pending().count(), 1);
}

#[test]
fn stalled_peers_in_the_order_of_joining() {
    let mut keeper = with_requests();
    assert_eq!(
        step(&mut keeper, Step::ScheduledTick, 62_001),
        Outcome::Stalled
    );
    step(&mut keeper, Step::Pick, 62_001);
    assert_eq!(
        step(&mut keeper, Step::ScheduledTick, 122_002),
        Outcome::Stalled
    );
    assert_eq!(keeper.stalled().collect::<Vec<_>>(), PEERS);
}

/// As the core of version 0.6 left it (host/fixed/version-1): types of one byte.
const STORED_BY_0_6: &[u8] = include_bytes!("../../fixed/version-1/synced-full.bin");

#[test]
fn what_version_0_6_stored_is_restored() {
    let mut keeper = RequestKeeper::from_bytes(STORED_BY_0_6).expect("a stored keeper");
    assert!(keeper.as_bytes() == STORED_BY_0_6, "as it was stored");
    assert_eq!(
        (keeper.mode(), keeper.sync_peer()),
        (Mode::Synced, Some(Peer(7)))
    );
    assert_eq!(
        (keeper.pending().count(), keeper.evicted().count()),
        (124, 900)
    );
    assert_eq!(keeper.stalled().count(), 256);
    let types: BTreeSet<u16> = keeper.pending().map(|r| r.modifier_type.number()).collect();
    assert_eq!(
        Vec::from_iter(types),
        [0, 2, 3, 101, 102, 103, 104, 108, 255]
    );

    let (before, clock) = (keeper.pending().collect::<Vec<_>>(), keeper.last_clock());
    let refused = keeper.step(Step::Start, &now(clock)).map(|_| ());
    assert_eq!(refused, Err(Refusal::WrongStep));
    assert!(keeper.as_bytes() == STORED_BY_0_6, "a refusal leaves it");

    step(&mut keeper, Step::OtherMessage, clock);
    assert_eq!(keeper.as_bytes()[3..5], [0, 2]);
    assert_eq!(keeper.pending().collect::<Vec<_>>(), before);
}

/// A type of two bytes, on order and asked for again, is told whole.
#[test]
fn types_of_two_bytes() {
    let mut keeper = with_requests();
    let modifier_type = ModifierType::from_number(0x0266);
    let id = &[0xcc; 32];
    let needed = Step::NeededModifier { modifier_type, id };
    step(&mut keeper, needed, 5_000);
    let on_order = keeper.pending().last().expect("the last id");
    assert_eq!((on_order.id, on_order.modifier_type), (*id, modifier_type));
    let pairs = keeper.question(Question::LostPeer).expect("well formed");
    assert_eq!(pairs.collect::<Vec<_>>(), [(modifier_type, id)]);
}
