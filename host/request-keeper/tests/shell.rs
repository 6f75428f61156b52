//! What the crate does for a shell: dropping the rest of a batch, an entry's failed send, lists of any size handed on,
//! bytes that are no image.

use request_keeper::{
    Command, Id, Message, Mode, ModifierType, Outcome, Peer, Refusal, RequestKeeper, Section,
    Sends, Settings, Step, StoredPairs, Surroundings, View, STATE_BYTES,
};

const PEERS: &[Peer] = &[Peer(4), Peer(5)];

fn now<'a>(clock: u64) -> Surroundings<'a> {
    Surroundings {
        peers: PEERS,
        ..Surroundings::at(clock)
    }
}

/// A keeper in syncing from peer 4.
fn syncing() -> RequestKeeper {
    let mut keeper = RequestKeeper::open(Settings::default(), 0, 0).expect("opened");
    let _ = keeper.step(Step::Start, &now(0)).expect("started");
    let entry = keeper.step(Step::Pick, &now(1_000)).expect("picked");
    let sends = entry.send(|_| Ok::<(), ()>(()));
    let expected = Sends {
        sent: 1,
        ..Sends::default()
    };
    assert_eq!(sends, expected);
    keeper
}

fn many(count: usize) -> Vec<Id> {
    let id = |number: usize| {
        let mut id = [0; 32];
        id[..8].copy_from_slice(&number.to_be_bytes());
        id
    };
    (0..count).map(id).collect()
}

fn headers_of(from: Peer, ids: &[Id]) -> Step<'_> {
    Step::Announced {
        from,
        modifier_type: ModifierType::HEADER,
        ids,
    }
}

fn headers(ids: &[Id]) -> Step<'_> {
    headers_of(Peer(9), ids)
}

#[test]
fn a_failed_send_drops_the_rest_of_its_batch() {
    let ids = many(801);
    let mut keeper = syncing();
    let finished = keeper.step(headers(&ids), &now(1_000)).expect("finished");
    let mut tried = Vec::new();
    let sends = finished.send(|command: Command<'_>| {
        if let Message::Request { ids, .. } = command.message {
            tried.push(ids.len());
        }
        if tried.len() == 2 {
            Err("full queue")
        } else {
            Ok(())
        }
    });
    assert_eq!(tried, [400, 400]);
    let expected = Sends {
        sent: 1,
        failed: 1,
        dropped: 1,
        entry_failed: false,
    };
    assert_eq!(sends, expected);
}

#[test]
fn other_batches_are_sent_nevertheless() {
    let section = |modifier_type, number| Section {
        modifier_type,
        id: [number; 32],
        stored: false,
    };
    let mut view = View::from_height(1);
    view.push_header(&[
        section(ModifierType::BLOCK_TRANSACTIONS, 1),
        section(ModifierType::EXTENSION, 2),
    ])
    .expect("two sections");
    let surroundings = Surroundings {
        chain_height: 1,
        view: &view,
        ..now(2_000)
    };
    let mut keeper = syncing();
    let finished = keeper
        .step(Step::Progress, &surroundings)
        .expect("finished");
    let mut outbox = finished.outbox();
    let mut batches = Vec::new();
    while let Some(command) = outbox.next() {
        batches.push(command.batch);
        outbox.failed();
    }
    // Two lists of sections, and the sync info that progress may send: no entry's.
    assert_eq!(batches, [0, 1, 2]);
    assert_eq!((outbox.dropped(), outbox.entry_failed()), (0, false));
}

#[test]
fn an_entry_that_can_t_send_is_the_next_step() {
    let mut keeper = RequestKeeper::open(Settings::default(), 0, 0).expect("opened");
    let _ = keeper.step(Step::Start, &now(0)).expect("started");
    let entry = keeper.step(Step::Pick, &now(1_000)).expect("picked");
    assert!(entry.send(|_| Err("reset")).entry_failed);
    let gone = keeper
        .step(Step::SendFailure, &now(1_000))
        .expect("reported");
    assert_eq!(gone.answer.outcome, Outcome::SyncPeerGone);
    assert_eq!(keeper.mode(), Mode::Seeking);
}

#[test]
fn lists_of_any_size_are_handed_on() {
    let ids = many(1_025);
    let stored: StoredPairs = many(1_025)
        .into_iter()
        .map(|id| (ModifierType::HEADER, id))
        .collect();
    let peers = vec![Peer(1); 129];
    let now = now(2_000);
    let calls = [
        (Step::Received { ids: &ids }, now, Refusal::Lists),
        (
            Step::Check,
            Surroundings {
                stored: &stored,
                ..now
            },
            Refusal::Lists,
        ),
        (
            Step::Check,
            Surroundings {
                peers: &peers,
                ..now
            },
            Refusal::Peers,
        ),
        (
            Step::Progress,
            Surroundings {
                chain_height: 1,
                ..now
            },
            Refusal::HeightOutsideView,
        ),
    ];
    let mut keeper = syncing();
    let before = keeper.as_bytes().to_vec();
    for (step, surroundings, refusal) in calls {
        assert_eq!(keeper.step(step, &surroundings).err(), Some(refusal));
        assert!(keeper.as_bytes() == before);
    }
}

#[test]
fn a_view_has_no_malformed_row() {
    let section = Section {
        modifier_type: ModifierType::EXTENSION,
        id: [1; 32],
        stored: true,
    };
    let mut view = View::from_height(u32::MAX - 1);
    for count in 0..=3 {
        assert_eq!(view.clone().push_header(&vec![section; count]), Ok(()));
    }
    assert_eq!(view.push_header(&[section; 4]), Err(Refusal::View));
    assert_eq!(view, View::from_height(u32::MAX - 1));
    assert_eq!(view.push_absent(), Ok(()));
    assert_eq!(view.push_header(&[section; 3]), Ok(()));
    let full = view.clone();
    assert_eq!(view.push_absent(), Err(Refusal::View));
    assert_eq!(view.push_header(&[]), Err(Refusal::View));
    assert_eq!(view, full);
    assert_eq!(full.to_string(), "heights 4294967294 to 4294967295");
    let surroundings = Surroundings {
        view: &full,
        ..now(2_000)
    };
    assert!(syncing().step(Step::Check, &surroundings).is_ok());
    let four = View::of_chain(0, 1, |_| Some(vec![section; 4]));
    assert_eq!(four, Err(Refusal::View));
}

/// Heights 1 to 100 are complete; the header of `absent` is absent.
fn row_of(height: u32, absent: u32) -> Option<Vec<Section>> {
    let section = Section {
        modifier_type: ModifierType::EXTENSION,
        id: [height as u8; 32],
        stored: height <= 100,
    };
    (height != absent).then(|| vec![section])
}

fn view_of(chain_height: u32, absent: u32) -> View {
    View::of_chain(0, chain_height, |height| row_of(height, absent)).expect("one section each")
}

/// The first heights up to `last`.
fn view_to(last: u32, absent: u32) -> View {
    let mut view = View::from_height(1);
    for height in 1..=last {
        match row_of(height, absent) {
            Some(sections) => view.push_header(&sections),
            None => view.push_absent(),
        }
        .expect("one section");
    }
    view
}

/// What a step with this view comes to: its answer, its commands, the state; or its refusal.
fn with_view(step: Step<'_>, chain_height: u32, view: &View) -> Result<(String, Vec<u8>), Refusal> {
    let mut keeper = syncing();
    let surroundings = Surroundings {
        chain_height,
        view,
        ..now(2_000)
    };
    let finished = format!("{:?}", keeper.step(step, &surroundings)?);
    Ok((finished, keeper.as_bytes().to_vec()))
}

#[test]
fn how_far_a_view_reaches_decides_nothing() {
    for (chain_height, absent) in [(50, 0), (500, 0), (500, 150)] {
        let view = view_of(chain_height, absent);
        let longer = view_to(chain_height + 300, absent);
        let shorter = view_to(view.rows() as u32 - 1, absent);
        // Of both rules, progress runs one.
        let reorg = Step::Reorg { fork_point: 0 };
        for step in [Step::Progress, reorg] {
            let answered = with_view(step, chain_height, &view);
            assert!(answered.is_ok());
            assert!(with_view(step, chain_height, &longer) == answered);
        }
        let refused = with_view(reorg, chain_height, &shorter).err();
        assert_eq!(refused, Some(Refusal::HeightOutsideView));
    }
}

#[test]
fn a_view_reaches_as_far_as_the_rules_read() {
    for (chain_height, absent, rows) in [(0, 0, 0), (50, 0, 50), (500, 0, 292), (500, 150, 150)] {
        let view = view_of(chain_height, absent);
        assert_eq!(view.rows(), rows);
        let surroundings = |clock| Surroundings {
            chain_height,
            view: &view,
            ..now(clock)
        };
        // Rule 5, then rule 4 from where it got to; a reorg runs both.
        for step in [Step::Progress, Step::Reorg { fork_point: 0 }] {
            let mut keeper = syncing();
            assert!(keeper.step(step, &surroundings(2_000)).is_ok());
        }
    }
    let none = View::of_chain(u32::MAX, u32::MAX, |_| None);
    assert_eq!(none.map(|view| view.rows()), Ok(0));
}

/// A keeper in synced.
fn synced() -> RequestKeeper {
    let mut keeper = syncing();
    let answer = keeper
        .step(headers_of(Peer(4), &[]), &now(1_000))
        .map(|step| step.answer);
    assert_eq!(answer.map(|answer| answer.outcome), Ok(Outcome::Synced));
    keeper
}

#[test]
fn a_step_that_looks_at_no_window_reads_to_the_first_height_that_is_not_complete() {
    let received = Step::Received { ids: &[] };
    for (chain_height, absent, rows) in [(0, 0, 0), (50, 0, 50), (500, 0, 101), (500, 70, 70)] {
        let view = View::of_complete(0, chain_height, |height| row_of(height, absent));
        let view = view.expect("one section each");
        assert_eq!(view.rows(), rows);
        let shorter = view_to(rows.saturating_sub(1) as u32, absent);
        for (keeper, step) in [
            (syncing(), received),
            (syncing(), Step::Check),
            (synced(), received),
            (synced(), Step::ScheduledTick),
        ] {
            let with = |view| Surroundings {
                chain_height,
                view,
                ..now(2_000)
            };
            assert!(keeper.clone().step(step, &with(&view)).is_ok());
            let refusal = keeper.clone().step(step, &with(&shorter)).err();
            assert_eq!(refusal, (rows > 0).then_some(Refusal::HeightOutsideView));
        }
    }
}

#[test]
fn an_empty_list_of_headers_reads_a_view_only_if_the_sync_peer_sent_it() {
    let heard_from = |peer| {
        let surroundings = Surroundings {
            chain_height: 50,
            ..now(2_000)
        };
        let mut keeper = syncing();
        let finished = keeper.step(headers_of(peer, &[]), &surroundings);
        finished.map(|finished| (finished.answer.outcome, finished.commands().count()))
    };
    assert_eq!(heard_from(Peer(4)), Err(Refusal::HeightOutsideView));
    assert_eq!(heard_from(Peer(9)), Ok((Outcome::Continue, 0)));
}

#[test]
fn bytes_that_are_no_image_are_refused() {
    for length in [0, STATE_BYTES - 1, STATE_BYTES + 1] {
        let refusal = RequestKeeper::from_bytes(&vec![0; length]).err();
        assert_eq!(refusal, Some(Refusal::StateLength));
    }
    let refusal = RequestKeeper::from_bytes(&[0; STATE_BYTES]).err();
    assert_eq!(refusal, Some(Refusal::MalformedImage));
    let keeper = syncing();
    let restored = RequestKeeper::from_bytes(keeper.as_bytes()).expect("its own bytes");
    assert!(restored.as_bytes() == keeper.as_bytes());
}
