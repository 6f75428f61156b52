//! Every argument arrives in its place, and so does every number of an answer: each has an effect of its own here, and
//! no two of a width could change places unnoticed. `arguments.c` makes the same calls in C; what the steps do not
//! read has other values there, and the transcripts are the same.

mod scenario;

use request_keeper::{
    Answer, Id, MeanAge, Mode, ModifierType, Outcome, Question, Refusal, Step, Surroundings,
    SyncInfo,
};
use scenario::{at, command, id, ids, row, view, Scenario};
use scenario::{BASE, BLOCK, EIGHT, EXTENSION, HEADER, NEEDED, SECTION, SENDER, SEVEN};
use std::path::Path;
use std::process::Command;

fn announcement(modifier_type: ModifierType, ids: &[Id]) -> Step<'_> {
    Step::Announced {
        from: SENDER,
        modifier_type,
        ids,
    }
}

/// Start and pick: chain height, view, peers.
fn entry(scenario: &mut Scenario) {
    let rows = view(10, &[row(BLOCK, 0x10, true), row(BLOCK, 0x11, false)]);
    let now = Surroundings {
        chain_height: 11,
        view: &rows,
        ..at(1)
    };
    scenario.writes(Step::Start, now, &[]);
    assert_eq!(scenario.keeper.downloaded_height(), 10);
    let now = Surroundings {
        peers: &[SEVEN, EIGHT],
        ..at(1_000)
    };
    let sync_info = command(3, 0, 0, SEVEN, &[]);
    scenario.writes(Step::Pick, now, &[sync_info]);
    assert_eq!(scenario.keeper.sync_peer(), Some(SEVEN));
    assert_eq!(scenario.keeper.last_clock(), BASE + 1_000);
}

/// Announced ids: gate, sender, type, ids, stored pairs, and the clock in a record.
fn announced(scenario: &mut Scenario) {
    let stored = [(BLOCK, id(0xa5))].into_iter().collect();
    let now = Surroundings {
        stored: &stored,
        ..at(2_000)
    };
    let request = command(1, 102, 0, SENDER, &ids::<4>(0xa1));
    let answer = scenario.writes(announcement(BLOCK, &ids::<5>(0xa1)), now, &[request]);
    assert_eq!(answer.pending, 4);
    let record = [(2_592, 8), (2_600, 2), (2_602, 8)];
    assert_eq!(
        record.map(|(at, width)| scenario.field(at, width)),
        [SENDER.0, 102, BASE + 2_000]
    );
    let shut = Surroundings {
        gate_open: false,
        ..at(2_001)
    };
    scenario.writes(announcement(BLOCK, &ids::<1>(0xb1)), shut, &[]);
}

/// Sync infos: chain height, tip, parsed, continuation ids.
fn sync_infos(scenario: &mut Scenario) {
    let from = SENDER;
    let now = |after| Surroundings {
        chain_height: 50,
        ..at(after)
    };
    let reply = |batch| command(3, 0, batch, SENDER, &[]);
    let continuation = ids::<2>(0xc1);
    let parsed = Some(SyncInfo {
        tip: Some(40),
        continuation: &continuation,
    });
    let announcement = command(2, 101, 0, SENDER, &continuation);
    let sends = [announcement, reply(1)];
    scenario.writes(Step::SyncInfo { from, parsed }, now(3_000), &sends);
    assert_eq!(scenario.keeper.known_tip(), 40);
    let parsed = Some(SyncInfo {
        tip: None,
        continuation: &ids::<1>(0xc3),
    });
    let sends = [command(2, 101, 0, SENDER, &ids::<1>(0xc3)), reply(1)];
    scenario.writes(Step::SyncInfo { from, parsed }, now(4_000), &sends);
    let unparsed = Step::SyncInfo { from, parsed: None };
    scenario.writes(unparsed, now(5_000), &[reply(0)]);
    assert_eq!(scenario.keeper.known_tip(), 40);
}

/// A check whose numbers all differ, and the mean age and both questions before it.
fn checks(scenario: &mut Scenario) {
    let announce = |scenario: &mut Scenario, after, modifier_type: ModifierType, ids: &[Id]| {
        let request = command(1, modifier_type.number(), 0, SENDER, ids);
        scenario.writes(announcement(modifier_type, ids), at(after), &[request]);
    };
    let now = Surroundings {
        chain_height: 10,
        peers: &[SEVEN],
        ..at(12_000)
    };
    let retry = command(1, 102, 0, SEVEN, &ids::<4>(0xa1));
    assert_eq!(scenario.writes(Step::Check, now, &[retry]).retried, 4);
    announce(scenario, 12_000, HEADER, &ids::<3>(0x61));
    announce(scenario, 12_000, ModifierType::TRANSACTION, &ids::<2>(0x71));
    let evicted = ids::<5>(0xe1);
    let answer = scenario.writes(Step::Evicted { ids: &evicted }, at(13_000), &[]);
    assert_eq!((answer.pending, answer.evicted), (9, 5));
    announce(scenario, 21_999, EXTENSION, &ids::<1>(0x81));
    // Nine asked for at 12,000 and one at 21,999.
    let mean = MeanAge {
        count: 10,
        quotient: 9_000,
        remainder: 1,
    };
    assert_eq!(scenario.keeper.mean_age(BASE + 22_000), Ok(mean));
    scenario.asks(Question::Check, &evicted.map(|id| (HEADER, id)));
    scenario.asks(Question::LostPeer, &ids::<4>(0xa1).map(|id| (BLOCK, id)));
    let stored = [(HEADER, id(0xe5))].into_iter().collect();
    let now = Surroundings {
        chain_height: 10,
        peers: &[EIGHT],
        stored: &stored,
        ..at(22_000)
    };
    let sends = [
        command(1, 101, 0, EIGHT, &ids::<3>(0x61)),
        command(1, 101, 1, EIGHT, &ids::<4>(0xe1)),
    ];
    let expected = Answer {
        outcome: Outcome::Continue,
        retried: 3,
        fresh: 5,
        abandoned: 4,
        forgotten: 2,
        pending: 8,
        evicted: 0,
    };
    assert_eq!(scenario.writes(Step::Check, now, &sends), expected);
}

/// A reorg and what comes after: fork point, chain height, view, peers; received and needed ids; the peer that is lost.
fn reorg(scenario: &mut Scenario) {
    let rows = view(4, &[row(EXTENSION, 0x44, true), row(SECTION, 0x55, false)]);
    let now = Surroundings {
        chain_height: 5,
        peers: &[EIGHT, SEVEN],
        view: &rows,
        ..at(23_000)
    };
    let request = command(1, 0x6c66, 0, EIGHT, &[id(0x55)]);
    let answer = scenario.writes(Step::Reorg { fork_point: 3 }, now, &[request]);
    assert_eq!(
        (answer.pending, scenario.keeper.downloaded_height()),
        (1, 4)
    );
    let rows = view(5, &[row(SECTION, 0x55, true)]);
    let now = Surroundings {
        chain_height: 5,
        view: &rows,
        ..at(24_000)
    };
    let ids = [id(0x55)];
    let answer = scenario.writes(Step::Received { ids: &ids }, now, &[]);
    assert_eq!(
        (answer.pending, scenario.keeper.downloaded_height()),
        (0, 5)
    );
    let needed = Step::NeededModifier {
        modifier_type: NEEDED,
        id: &id(0x91),
    };
    let request = command(1, 0x6865, 0, SEVEN, &[id(0x91)]);
    scenario.writes(needed, at(25_000), &[request]);
    assert_eq!(scenario.field(2_600, 2), 0x6865);
    // Stored as a type that either of its bytes is, and of one that has them turned about: it is asked for again.
    scenario.asks(Question::LostPeer, &[(NEEDED, id(0x91))]);
    let others = [0x65, 0x68, 0x6568].map(|number| (ModifierType::from_number(number), id(0x91)));
    let stored = others.into_iter().collect();
    let now = Surroundings {
        peers: &[EIGHT],
        stored: &stored,
        ..at(26_000)
    };
    let request = command(1, 0x6865, 0, EIGHT, &[id(0x91)]);
    let answer = scenario.writes(Step::LostPeer { peer: SEVEN }, now, &[request]);
    assert_eq!(answer.outcome, Outcome::SyncPeerGone);
}

/// Stalling, two refusals, and the end.
fn ends(scenario: &mut Scenario) {
    let sync_info = || [command(3, 0, 0, EIGHT, &[])];
    let now = Surroundings {
        peers: &[EIGHT],
        ..at(27_000)
    };
    scenario.writes(Step::Pick, now, &sync_info());
    let answer = scenario.writes(Step::ScheduledTick, at(90_000), &sync_info());
    assert_eq!(answer.outcome, Outcome::Stalled);
    assert_eq!(scenario.field(512, 8), EIGHT.0);
    let refused = scenario.step(Step::Check, at(90_000));
    assert_eq!(refused, Err(Refusal::WrongStep));
    let refused = scenario.step(Step::EndOfStream, at(89_999));
    assert_eq!(refused, Err(Refusal::ClockWentBack));
    let answer = scenario.writes(Step::EndOfStream, at(90_000), &[]);
    assert_eq!(answer.outcome, Outcome::EndOfStream);
    assert_eq!(scenario.keeper.mode(), Mode::Ended);
}

fn played() -> Scenario {
    let mut scenario = Scenario::opened();
    entry(&mut scenario);
    announced(&mut scenario);
    sync_infos(&mut scenario);
    checks(&mut scenario);
    reorg(&mut scenario);
    ends(&mut scenario);
    scenario::map::play(&mut scenario.transcript);
    scenario
}

#[test]
fn in_rust() {
    played();
}

/// Builds `arguments.c` against the header and the archive, runs it, and compares the transcripts.
#[test]
fn in_c() {
    let folder = Path::new(env!("CARGO_MANIFEST_DIR"));
    let program = Path::new(env!("CARGO_TARGET_TMPDIR")).join("arguments");
    let compiler = std::env::var("CC").unwrap_or_else(|_| "cc".to_string());
    let built = Command::new(&compiler)
        .args([
            "-std=c11",
            "-O2",
            "-Wall",
            "-Wextra",
            "-Werror",
            "-pedantic",
        ])
        .arg("-I")
        .arg(folder.join("include"))
        .arg(folder.join("tests/arguments.c"))
        .arg(env!("REQUEST_KEEPER_ARCHIVE"))
        .arg("-o")
        .arg(&program)
        .output()
        .unwrap_or_else(|error| panic!("{compiler} does not start: {error}"));
    let told = String::from_utf8_lossy(&built.stderr);
    assert!(built.status.success(), "{told}");
    let run = Command::new(&program).output().expect("it starts");
    assert!(run.status.success());
    let transcript = String::from_utf8_lossy(&run.stdout);
    let expected = played().transcript;
    for (line, (c, rust)) in transcript.lines().zip(expected.lines()).enumerate() {
        assert_eq!(c, rust, "line {}", line + 1);
    }
    assert_eq!(transcript, expected);
}
