//! Opening, step and question on a core, with every refusal in its order (docs/LAYOUT.md, "Entries" and "Refusals").

use crate::commands::Commands;
use crate::inputs::Inputs;
use crate::{image, Refusal, Rules, Run};
use keeper_values::numbers::{kinds, limits, types};
use keeper_values::{Answer, Arguments, Id, Mode, Settings, State, TypeId};
use keeper_values::{COMMAND_BYTES, STATE_BYTES};
use std::collections::{BTreeMap, BTreeSet};

pub fn state_length_fits(length: usize) -> bool {
    length == STATE_BYTES
}

pub fn commands_length_fits(length: usize) -> bool {
    length >= COMMAND_BYTES
}

/// The state of an opened core: "its clock is the last progress, last send and last clock; all else starts 0 or
/// empty, mode new".
pub fn opened(settings: Settings, clock: u64, height: u32) -> State {
    State {
        mode: Mode::New,
        progress_mark: false,
        entry_mark: false,
        last_clock: clock,
        settings,
        last_progress: clock,
        last_send: clock,
        sync_peer: None,
        sends_counted: 0,
        downloaded: height,
        known_tip: 0,
        stalled: Vec::new(),
        pending: BTreeMap::new(),
        evicted: Vec::new(),
    }
}

pub fn open(rules: &Rules, state: &mut [u8], settings: Settings, clock: u64, height: u32) -> u32 {
    if !(rules.state_length_fits)(state.len()) {
        return 1;
    }
    let opened = (rules.opened)(settings, clock, height);
    let area = (rules.rewritten)(state, &opened);
    state.copy_from_slice(&area);
    0
}

/// 1 and 2: the state area.
pub fn readable(rules: &Rules, state: &[u8]) -> Result<State, Refusal> {
    if !(rules.state_length_fits)(state.len()) {
        return Err(Refusal(1));
    }
    image::read(rules, state).ok_or(Refusal(2))
}

/// 1, 2 and 3: the areas.
pub fn areas(rules: &Rules, state: &[u8], commands: &[u8]) -> Result<State, Refusal> {
    let read = readable(rules, state)?;
    if !(rules.commands_length_fits)(commands.len()) {
        return Err(Refusal(3));
    }
    Ok(read)
}

pub fn clock_fits(state: &State, clock: u64) -> bool {
    clock >= state.last_clock
}

/// Flags are 0 or 1, in every step.
pub fn flags_fit(arguments: &Arguments) -> bool {
    arguments.gate <= 1 && arguments.parsed <= 1 && arguments.has_tip <= 1
}

/// "a send failure after anything but an entry that sent"
pub fn failure_fits(state: &State, kind: u8) -> bool {
    kind != kinds::SEND_FAILURE || state.entry_mark
}

/// 4 to 8: the call, the lists and the view, whether the step reads them or not.
pub fn arguments_fit(rules: &Rules, state: &State, call: &Arguments) -> Result<(), Refusal> {
    let tests = [
        (4, (rules.clock_fits)(state, call.clock)),
        (5, (rules.kind_fits)(state.mode, call.kind)),
        (5, (rules.flags_fit_call)(call)),
        (5, (rules.failure_fits)(state, call.kind)),
        (6, (rules.ids_fit)(&call.ids)),
        (
            6,
            call.kind != kinds::NEEDED || (rules.needed_fits)(&call.ids),
        ),
        (6, (rules.continuation_fits)(&call.continuation)),
        (6, (rules.stored_fits)(&call.stored)),
        (7, (rules.peers_fit)(&call.peers)),
        (8, (rules.view_fits)(&call.view)),
    ];
    match tests.iter().find(|(_, fits)| !fits) {
        Some((number, _)) => Err(Refusal(*number)),
        None => Ok(()),
    }
}

/// What a result could be judged by besides what the step would leave. Document 01 does not.
pub struct Before {
    pub kind: u8,
    pub pending: usize,
}

/// 10 and 11: what the step would leave.
pub fn result_fits(_: &Before, state: &State) -> Result<(), Refusal> {
    if state.pending.len() + state.evicted.len() > limits::TRACKED {
        return Err(Refusal(10));
    }
    if state.stalled.len() > limits::STALLED {
        return Err(Refusal(11));
    }
    Ok(())
}

/// The step on values: what it leaves, writes and answers.
fn finish(
    rules: &Rules,
    state: State,
    call: &Arguments,
) -> Result<(State, Vec<u8>, Answer), Refusal> {
    let before = Before {
        kind: call.kind,
        pending: state.pending.len(),
    };
    let mut run = Run {
        rules,
        inputs: Inputs::read(call),
        state,
        commands: Commands::default(),
        counts: [0; 4],
    };
    run.state.entry_mark = false;
    let outcome = crate::steps::step(&mut run)?;
    run.state.last_clock = call.clock;
    (rules.result_fits)(&before, &run.state)?;
    let [retried, fresh, abandoned, forgotten] = run.counts;
    let answer = Answer {
        number: 0,
        outcome,
        retried,
        fresh,
        abandoned,
        forgotten,
        pending: run.state.pending.len() as u32,
        evicted: run.state.evicted.len() as u32,
        length: run.commands.bytes.len() as u32,
    };
    Ok((run.state, run.commands.bytes, answer))
}

pub fn step(rules: &Rules, state: &mut [u8], commands: &mut [u8], call: &Arguments) -> Answer {
    let finished = (rules.areas)(rules, state, commands).and_then(|before| {
        (rules.arguments_fit)(rules, &before, call)?;
        finish(rules, before, call)
    });
    match finished {
        Ok((after, written, answer)) => {
            let area = (rules.rewritten)(state, &after);
            state.copy_from_slice(&area);
            commands[..written.len()].copy_from_slice(&written);
            answer
        }
        Err(Refusal(number)) => Answer::refused(number),
    }
}

/// "each evicted id as a header, or each non-transaction id pending from the sync peer [..] no sync peer, no pairs"
pub fn pairs(state: &State, flag: u8) -> BTreeSet<(TypeId, Id)> {
    let Some(sync_peer) = state.sync_peer else {
        return BTreeSet::new();
    };
    if flag == 0 {
        return state
            .evicted
            .iter()
            .map(|id| (types::HEADER, *id))
            .collect();
    }
    let owed = state
        .pending
        .iter()
        .filter(|(_, request)| request.peer == sync_peer && request.type_id != types::TRANSACTION);
    owed.map(|(id, request)| (request.type_id, *id)).collect()
}

pub fn question(rules: &Rules, state: &[u8], commands: &mut [u8], flag: u8) -> (u32, u32) {
    let asked = match (rules.areas)(rules, state, commands) {
        Err(Refusal(number)) => return (number, 0),
        Ok(_) if flag > 1 => return (5, 0),
        Ok(state) => (rules.pairs)(&state, flag),
    };
    let mut written = Vec::new();
    for (type_id, id) in asked {
        written.extend(type_id.to_be_bytes());
        written.extend(id);
    }
    commands[..written.len()].copy_from_slice(&written);
    (0, written.len() as u32)
}
