//! The typed crate against the reference on random streams: the same forecasts, mean ages, answers, commands and bytes of state.

use keeper_reference::{image, Reference, PLAIN};
use keeper_streams::random::Random;
use keeper_streams::Opening;
use keeper_values::numbers::kinds;
use keeper_values::{Answer, Call, Forecast, Keeper, MeanAge, Mode, Row, COMMAND_BYTES};
use request_keeper::{
    ModifierType, Peer, Question, Refusal, RequestKeeper, Section, Settings, Step, StoredPairs,
    Surroundings, SyncInfo, View,
};

fn opened(opening: &Opening) -> RequestKeeper {
    let keeper = match opening {
        Opening::Put(state) => RequestKeeper::from_bytes(&image::write(state)),
        Opening::Open {
            settings,
            clock,
            height,
        } => {
            let settings = Settings {
                timeout: settings.timeout,
                max_checks: settings.max_checks,
                min_sync_send_interval: settings.min_sync_send_interval,
                stall_timeout: settings.stall_timeout,
            };
            RequestKeeper::open(settings, *clock, *height)
        }
    };
    keeper.expect("a good opening")
}

/// The step of a call, and the call without the lists that the step does not read; `None` where types rule it out.
fn typed(call: &Call) -> Option<(Step<'_>, Call)> {
    let from = Peer(call.peer);
    let ids = call.ids.as_slice();
    let modifier_type = ModifierType::from_number(call.type_id);
    let parsed = call.parsed.then_some(SyncInfo {
        tip: call.has_tip.then_some(call.tip),
        continuation: &call.continuation,
    });
    let step = match call.kind {
        kinds::START => Step::Start,
        kinds::PICK => Step::Pick,
        kinds::NEEDED => match ids {
            [id] => Step::NeededModifier { modifier_type, id },
            _ => return None,
        },
        kinds::REORG => Step::Reorg {
            fork_point: call.fork,
        },
        kinds::ANNOUNCED => Step::Announced {
            from,
            modifier_type,
            ids,
        },
        kinds::SYNC_INFO => Step::SyncInfo { from, parsed },
        kinds::OTHER_MESSAGE => Step::OtherMessage,
        kinds::LOST_PEER => Step::LostPeer { peer: from },
        kinds::RECEIVED => Step::Received { ids },
        kinds::EVICTED => Step::Evicted { ids },
        kinds::PROGRESS => Step::Progress,
        kinds::CHECK => Step::Check,
        kinds::SCHEDULED_TICK => Step::ScheduledTick,
        kinds::SECTION_TICK => Step::SectionTick,
        kinds::SEND_FAILURE => Step::SendFailure,
        kinds::END_OF_STREAM => Step::EndOfStream,
        _ => return None,
    };
    let mut read = call.clone();
    let listed = [
        kinds::NEEDED,
        kinds::ANNOUNCED,
        kinds::RECEIVED,
        kinds::EVICTED,
    ];
    if !listed.contains(&call.kind) {
        read.ids.clear();
    }
    if call.kind != kinds::SYNC_INFO || !call.parsed {
        read.continuation.clear();
    }
    Some((step, read))
}

fn view(call: &Call) -> Result<View, Refusal> {
    let mut view = View::from_height(call.view.first);
    for row in &call.view.rows {
        match row {
            Row::Absent => view.push_absent()?,
            Row::Present(places) => {
                let section = |place: &keeper_values::Place| Section {
                    modifier_type: ModifierType::from_number(place.type_id),
                    id: place.id,
                    stored: place.stored,
                };
                view.push_header(&places.iter().map(section).collect::<Vec<_>>())?;
            }
        }
    }
    Ok(view)
}

/// One call on both sides.
fn compare(keeper: &mut RequestKeeper, state: &mut Vec<u8>, step: Step<'_>, call: &Call) {
    let mut commands = vec![0; COMMAND_BYTES];
    let arguments = call.to_arguments();
    let foretold = Reference::plain().forecast(state, &arguments);
    let aged = Reference::plain().mean_age(state, call.clock);
    let expected = Reference::plain().step(state, &mut commands, &arguments);
    let pairs = call
        .stored
        .iter()
        .map(|(t, id)| (ModifierType::from_number(*t), *id));
    let peers: Vec<Peer> = call.peers.iter().map(|peer| Peer(*peer)).collect();
    let now = Surroundings {
        clock: call.clock,
        gate_open: call.gate,
        chain_height: call.height,
        peers: &peers,
        stored: &pairs.collect::<StoredPairs>(),
        view: &view(call).expect("rows that can be said"),
    };
    let forecast = match keeper.forecast(step, &now) {
        Err(refusal) => Forecast::refused(refusal.number()),
        Ok(forecast) => Forecast {
            number: 0,
            outcome: forecast.outcome.number(),
            pending: forecast.pending,
            evicted: forecast.evicted,
            commands: forecast.commands,
            length: forecast.command_bytes,
        },
    };
    assert_eq!(forecast, foretold, "{step:?}");
    let mean = match keeper.mean_age(call.clock) {
        Err(refusal) => MeanAge::refused(refusal.number()),
        Ok(mean) => MeanAge {
            number: 0,
            count: mean.count,
            quotient: mean.quotient,
            remainder: mean.remainder,
        },
    };
    assert_eq!(mean, aged, "{step:?}");
    let answer = match keeper.step(step, &now) {
        Err(refusal) => Answer::refused(refusal.number()),
        Ok(finished) => {
            let written = finished.commands().as_bytes();
            assert_eq!(written, &commands[..written.len()], "{step:?}");
            assert_eq!(read_back(&finished), written, "{step:?}");
            let answer = finished.answer;
            Answer {
                number: 0,
                outcome: answer.outcome.number(),
                retried: answer.retried,
                fresh: answer.fresh,
                abandoned: answer.abandoned,
                forgotten: answer.forgotten,
                pending: answer.pending,
                evicted: answer.evicted,
                length: written.len() as u32,
            }
        }
    };
    assert_eq!(answer, expected, "{step:?}");
    assert!(keeper.as_bytes() == state, "state after {step:?}");
}

/// The commands that the iterator gives, written down again.
fn read_back(finished: &request_keeper::Finished<'_>) -> Vec<u8> {
    let mut bytes = Vec::new();
    for command in finished.commands() {
        let (kind, type_id, ids) = match command.message {
            request_keeper::Message::Request { modifier_type, ids } => {
                (1, modifier_type.number(), ids)
            }
            request_keeper::Message::Announcement { ids } => (2, 101, ids),
            request_keeper::Message::SyncInfo => (3, 0, [].as_slice()),
        };
        bytes.push(kind);
        bytes.extend(type_id.to_be_bytes());
        bytes.extend(command.batch.to_be_bytes());
        bytes.extend(command.to.0.to_be_bytes());
        bytes.extend((ids.len() as u32).to_be_bytes());
        bytes.extend(ids.as_flattened());
    }
    bytes
}

/// Both questions.
fn questions(keeper: &mut RequestKeeper, state: &[u8]) {
    for (question, flag) in [(Question::Check, 0), (Question::LostPeer, 1)] {
        let mut commands = vec![0; COMMAND_BYTES];
        let (number, length) = Reference::plain().question(state, &mut commands, flag);
        let pairs = keeper.question(question).expect("well formed");
        let pairs = pairs.stored_by(|_, _| true);
        assert_eq!(
            (number, pairs.as_bytes()),
            (0, &commands[..length as usize])
        );
    }
}

fn stream(seed: u64) -> u64 {
    let mut random = Random::new(seed);
    let mut keeper = opened(random.opening());
    let mut state = keeper.as_bytes().to_vec();
    let mut steps = 0;
    for _ in 0..random.length.min(60) {
        let values = image::read(&PLAIN, &state).expect("well formed");
        if values.mode == Mode::Ended {
            break;
        }
        assert_eq!(keeper.mode().number(), values.mode.number());
        assert_eq!(keeper.sync_peer(), values.sync_peer.map(Peer));
        assert_eq!(keeper.downloaded_height(), values.downloaded);
        assert_eq!(keeper.known_tip(), values.known_tip);
        assert_eq!(keeper.last_clock(), values.last_clock);
        let call = random.next(&values);
        if let Some((step, read)) = typed(&call) {
            compare(&mut keeper, &mut state, step, &read);
            questions(&mut keeper, &state);
            steps += 1;
        }
    }
    steps
}

#[test]
fn the_types_say_what_the_bytes_say() {
    let steps: u64 = (1..=400).map(stream).sum();
    assert!(steps > 5_000, "{steps} steps");
}
