//! Every public value can be shown: its ids in hexadecimal digits, and in a few words for a log.

use request_keeper::{
    Answer, Command, Forecast, Hex, Id, MeanAge, Message, Mode, ModifierType, Outcome, Peer,
    PendingRequest, Question, Refusal, RequestKeeper, Section, Sends, Settings, Step, StoredPairs,
    Surroundings, SyncInfo, View, WindowMap,
};
use std::fmt::Debug;

const ID: Id = [0xa5; 32];
const EXTENSION: ModifierType = ModifierType::EXTENSION;

const SECTION: Section = Section {
    modifier_type: EXTENSION,
    id: ID,
    stored: false,
};

const PENDING: PendingRequest = PendingRequest {
    id: ID,
    peer: Peer(9),
    modifier_type: EXTENSION,
    stamp: 3_000,
    checks: 2,
};

const ANNOUNCED: Step<'static> = Step::Announced {
    from: Peer(9),
    modifier_type: EXTENSION,
    ids: &[ID, ID],
};

const SYNC_INFO: Step<'static> = Step::SyncInfo {
    from: Peer(9),
    parsed: Some(SyncInfo {
        tip: Some(7),
        continuation: &[ID],
    }),
};

fn stored() -> StoredPairs {
    [(EXTENSION, ID)].into_iter().collect()
}

fn view() -> View {
    let mut view = View::from_height(401);
    view.push_header(&[SECTION]).expect("one section");
    view.push_absent().expect("room for a row");
    view
}

fn map() -> WindowMap {
    WindowMap::filled(400, 402, &view()).expect("both rows")
}

/// A keeper to which one id was announced, after `look` has seen that step.
fn asked(look: impl FnOnce(request_keeper::Finished<'_>)) -> RequestKeeper {
    let mut keeper = RequestKeeper::open(Settings::default(), 0, 5).expect("opened");
    let now = Surroundings {
        peers: &[Peer(4)],
        ..Surroundings::at(1_000)
    };
    for step in [Step::Start, Step::Pick] {
        let _ = keeper.step(step, &now).expect("finished");
    }
    look(keeper.step(ANNOUNCED, &now).expect("finished"));
    keeper
}

#[test]
fn ids_are_hexadecimal() {
    let digits = "a5".repeat(32);
    let check = |times: usize, value: &dyn Debug| {
        let shown = format!("{value:?}");
        assert_eq!(shown.matches(&digits).count(), times, "{shown}");
        assert!(!shown.contains("165"), "{shown}");
    };
    check(1, &Hex(&ID));
    check(1, &SECTION);
    check(1, &PENDING);
    check(1, &stored());
    check(1, &stored().iter());
    check(1, &view());
    check(2, &ANNOUNCED);
    check(1, &SYNC_INFO);
    check(1, &Step::Received { ids: &[ID] });
    check(1, &Step::Evicted { ids: &[ID] });
    let needed = Step::NeededModifier {
        modifier_type: EXTENSION,
        id: &ID,
    };
    check(1, &needed);
    let surroundings = Surroundings {
        stored: &stored(),
        view: &view(),
        ..Surroundings::at(0)
    };
    check(2, &surroundings);
    asked(|finished| {
        check(2, &finished);
        check(2, &finished.commands());
        check(2, &finished.outbox());
    });
    check(1, &Message::Announcement { ids: &[ID] });
}

#[test]
fn in_a_few_words() {
    let hex = Hex(&ID);
    let request = Message::Request {
        modifier_type: EXTENSION,
        ids: &[ID],
    };
    let command = Command {
        to: Peer(9),
        batch: 0,
        message: request,
    };
    let answer = Answer {
        outcome: Outcome::Continue,
        retried: 1,
        fresh: 2,
        abandoned: 3,
        forgotten: 4,
        pending: 5,
        evicted: 6,
    };
    let forecast = Forecast {
        outcome: Outcome::Synced,
        pending: 1,
        evicted: 2,
        commands: 3,
        command_bytes: 4,
    };
    let mean = MeanAge {
        count: 3,
        quotient: 233,
        remainder: 1,
    };
    let even = MeanAge {
        remainder: 0,
        ..mean
    };
    let sends = Sends {
        sent: 1,
        failed: 2,
        dropped: 3,
        entry_failed: true,
    };
    let keeper = asked(|finished| assert_eq!(finished.commands().count(), 1));
    let shown = [
        (Peer(9).to_string(), "peer 9".to_string()),
        (EXTENSION.to_string(), "extension".to_string()),
        (
            ModifierType::from_byte(77).to_string(),
            "type 77".to_string(),
        ),
        (
            ModifierType::from_number(358).to_string(),
            "type 358".to_string(),
        ),
        (Mode::Synced.to_string(), "synced".to_string()),
        (
            Outcome::SyncPeerGone.to_string(),
            "sync peer gone".to_string(),
        ),
        (
            Outcome::Unknown(9).to_string(),
            "unknown outcome 9".to_string(),
        ),
        (SECTION.to_string(), format!("extension {hex} missing")),
        (
            PENDING.to_string(),
            format!("extension {hex} of peer 9, stamp 3000, checks 2"),
        ),
        (view().to_string(), "heights 401 to 402".to_string()),
        (
            map().to_string(),
            "heights 401 to 402, none can be passed".to_string(),
        ),
        (stored().to_string(), "1 stored".to_string()),
        (
            ANNOUNCED.to_string(),
            "peer 9 announces extension, 2 ids".to_string(),
        ),
        (
            SYNC_INFO.to_string(),
            "sync info of peer 9: tip 7, continued by 1 id".to_string(),
        ),
        (
            command.to_string(),
            "to peer 9: request of extension, 1 id".to_string(),
        ),
        (
            answer.to_string(),
            "Continue; retried 1, fresh 2, abandoned 3, forgotten 4; pending 5, evicted 6"
                .to_string(),
        ),
        (
            forecast.to_string(),
            "Synced; pending 1, evicted 2; commands 3, bytes 4".to_string(),
        ),
        (
            mean.to_string(),
            "3 pending, mean age 233 1/3 ms".to_string(),
        ),
        (even.to_string(), "3 pending, mean age 233 ms".to_string()),
        (
            MeanAge::default().to_string(),
            "nothing pending".to_string(),
        ),
        (
            sends.to_string(),
            "1 sent, 2 failed, 3 dropped; the entry failed".to_string(),
        ),
        (
            Question::Check.to_string(),
            "question before a check".to_string(),
        ),
        (
            Settings::default().to_string(),
            "timeout 10000 ms, check limit 100, sync infos 200 ms apart, stalled after 60000 ms"
                .to_string(),
        ),
        (
            keeper.to_string(),
            "syncing with peer 4, downloaded height 5".to_string(),
        ),
        (
            Refusal::TooManyStalled.to_string(),
            "refused as 11: a 257th stalled peer".to_string(),
        ),
    ];
    for (value, words) in shown {
        assert_eq!(value, words);
    }
}

#[test]
fn a_map_shows_what_is_stored() {
    let mut map = map();
    let shown = "WindowMap { downloaded_height: 400, chain_height: 402, passable: 0, heights: [[missing], absent] }";
    assert_eq!(format!("{map:?}"), shown);
    map.arrived(401, 0).expect("a section of the window");
    let shown = "WindowMap { downloaded_height: 400, chain_height: 402, passable: 1, heights: [[stored], absent] }";
    assert_eq!(format!("{map:?}"), shown);
    assert_eq!(map.to_string(), "heights 401 to 402, 1 can be passed");
    let empty = WindowMap::filled(402, 402, &View::EMPTY).expect("no row is needed");
    assert_eq!(empty.to_string(), "no heights");
}
