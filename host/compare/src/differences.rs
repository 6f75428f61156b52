//! The differences that docs/DIFFERENCES.md names, each shown on its smallest input.

use keeper_oracle::{Oracle, Reason, Verdict};
use keeper_reference::{image, Reference, PLAIN};
use keeper_streams::build::{missing, syncing, Build, CASES};
use keeper_streams::{directed, Opening, Script};
use keeper_values::numbers::{kinds, outcomes, widths};
use keeper_values::{Answer, Call, Keeper, Mode, State, TypeId};
use keeper_values::{COMMAND_BYTES, STATE_BYTES};
use keeper_variants::{AS_IN_F2, AS_PUBLISHED};

/// Bytes of a sync info, and of a request of one id.
const SYNC_INFO: u32 = widths::HEADER as u32;
const REQUEST_OF_ONE: u32 = SYNC_INFO + widths::ID as u32;

/// Runs a stream on a keeper; the last answer and the state after it.
fn played(keeper: &dyn Keeper, script: &Script) -> Result<(Answer, State), String> {
    let mut area = vec![0; STATE_BYTES];
    let mut commands = vec![0; COMMAND_BYTES];
    match &script.opening {
        Opening::Open {
            settings,
            clock,
            height,
        } => {
            keeper.open(&mut area, *settings, *clock, *height);
        }
        Opening::Put(state) => area = image::write(state),
    }
    let mut answer = Answer::default();
    for call in &script.calls {
        answer = keeper.step(&mut area, &mut commands, &call.to_arguments());
    }
    let state = image::read(&PLAIN, &area).ok_or("malformed state area")?;
    Ok((answer, state))
}

/// The Rust as the stream opens it.
fn opened(script: &Script) -> Result<Oracle, String> {
    let oracle = match &script.opening {
        Opening::Open {
            settings,
            clock,
            height,
        } => Oracle::open(*settings, *clock, *height),
        Opening::Put(state) => Oracle::put(state),
    };
    oracle.ok_or("no oracle".to_string())
}

/// Runs a stream on the Rust; the last verdict.
fn judged(script: &Script, more: &[Call]) -> Result<(Verdict, State), String> {
    let mut oracle = opened(script)?;
    let mut verdict = Err("no steps".to_string());
    for call in script.calls.iter().chain(more) {
        verdict = Ok(oracle.step(call));
    }
    Ok((verdict?, oracle.state().clone()))
}

fn holds(what: &str, held: bool) -> Result<(), String> {
    if held {
        Ok(())
    } else {
        Err(format!("difference: {what}"))
    }
}

/// D-1: end of stream in seeking. The Rust sees it after a fruitless pick only, which empties the stalled set.
fn d1(keeper: &dyn Keeper) -> Result<(), String> {
    let script = directed::d1();
    let (answer, state) = played(keeper, &script)?;
    holds("D-1, number", answer.number == 0)?;
    holds("D-1, outcome", answer.outcome == outcomes::END_OF_STREAM)?;
    holds("D-1, the keeper keeps 4 stalled", state.stalled == [4])?;
    let (verdict, _) = judged(&script, &[])?;
    let outside = Verdict::OutOfDomain(Reason::EndWithoutPick);
    holds("D-1, outside the domain", verdict == outside)?;
    // What the Rust does instead: the pick that it can't leave out, then the end.
    let clock = script.calls.last().map_or(0, |call| call.clock);
    let instead = [kinds::PICK, kinds::END_OF_STREAM].map(|kind| Call {
        kind,
        clock,
        ..Call::default()
    });
    let mut shorter = script;
    shorter.calls.pop();
    let (verdict, state) = judged(&shorter, &instead)?;
    holds(
        "D-1, the Rust ends",
        matches!(verdict, Verdict::Finished(_)),
    )?;
    holds("D-1, the Rust's set is empty", state.stalled.is_empty())
}

/// D-2: where a retry goes (F-8). The Rust as it was published asks the first other peer, stalled or not; the oracle's copy has
/// the rule written in. F-2's rule asked the failed peer again where it alone has not stalled.
fn d2(keeper: &dyn Keeper) -> Result<(), String> {
    // With the peers that the core, the Rust as published and F-2's rule ask.
    let inputs = [(directed::d2(), 6, 4, 6), (directed::d2_parting(), 4, 4, 5)];
    for (script, here, published, former) in inputs {
        let asks = |who, state: State, target: u64| {
            let what = format!("D-2, {}: {who} asks {target}", script.name);
            let asked: Vec<u64> = state.pending.values().map(|r| r.peer).collect();
            holds(&what, asked == [target])
        };
        let by = |rules| played(&Reference { rules }, &script);
        asks("the keeper", played(keeper, &script)?.1, here)?;
        asks("the oracle", judged(&script, &[])?.1, here)?;
        asks("the published rule", by(AS_PUBLISHED)?.1, published)?;
        asks("F-2's rule", by(AS_IN_F2)?.1, former)?;
    }
    Ok(())
}

/// D-3: an empty header list from another peer than the sync peer (F-5). The Rust takes itself for synced.
fn d3(keeper: &dyn Keeper) -> Result<(), String> {
    let script = directed::d3();
    let (answer, state) = played(keeper, &script)?;
    let told = (answer.number, answer.outcome, answer.length);
    let nothing = told == (0, outcomes::CONTINUE, 0);
    holds("D-3, Continue and no reply", nothing)?;
    let stays = state.mode == Mode::Syncing;
    holds("D-3, the keeper stays in syncing", stays)?;
    let (verdict, _) = judged(&script, &[])?;
    let outside = Verdict::OutOfDomain(Reason::EmptyHeaders);
    holds("D-3, outside the domain", verdict == outside)?;
    // What the Rust does with it.
    let mut oracle = opened(&script)?;
    let mut rust = None;
    for call in &script.calls {
        rust = Some(oracle.run(call));
    }
    let Some(Verdict::Finished(rust)) = rust else {
        return Err("D-3, the Rust does not finish it".to_string());
    };
    let synced = (rust.outcome, rust.state.mode) == (outcomes::SYNCED, Mode::Synced);
    holds("D-3, the Rust is synced", synced)
}

/// D-4: a type above 255 (F-6), for which the Rust has no room.
fn d4(keeper: &dyn Keeper) -> Result<(), String> {
    let script = directed::d4();
    let (answer, state) = played(keeper, &script)?;
    let asked = (answer.number, answer.length) == (0, REQUEST_OF_ONE);
    holds("D-4, asked for", asked)?;
    let pending: Vec<TypeId> = state.pending.values().map(|r| r.type_id).collect();
    holds("D-4, the whole type is kept", pending == [300])?;
    let (verdict, _) = judged(&script, &[])?;
    let outside = Verdict::OutOfDomain(Reason::WideTypes);
    holds("D-4, outside the domain", verdict == outside)?;
    holds("D-4, no such state", Oracle::put(&state).is_none())
}

/// A sum that is exact here and overflows in the Rust: the step's outcome, and its length in bytes.
fn overflow(keeper: &dyn Keeper, script: &Script, outcome: u32, length: u32) -> Result<(), String> {
    let (answer, _) = played(keeper, script)?;
    holds(
        &script.name,
        (answer.number, answer.outcome) == (0, outcome),
    )?;
    holds(&script.name, answer.length == length)?;
    let (verdict, _) = judged(script, &[])?;
    holds(&script.name, verdict == Verdict::OutOfDomain(Reason::Panic))
}

/// `our + 1`: at height 2^32 - 1 no tip can be ahead, so another peer's sync info is Continue and gets a reply.
fn our_sum(keeper: &dyn Keeper) -> Result<(), String> {
    let script = Build::put("our + 1", syncing(CASES, 0))
        .tip(6, u32::MAX, 0)
        .done();
    overflow(keeper, &script, outcomes::CONTINUE, SYNC_INFO)
}

/// `downloaded + 192`: the window ends at the chain height.
fn window_sum(keeper: &dyn Keeper) -> Result<(), String> {
    let state = State {
        downloaded: u32::MAX - 191,
        progress_mark: true,
        ..syncing(CASES, 0)
    };
    let script = Build::put("downloaded + 192", state)
        .call(kinds::PROGRESS, |c| {
            c.height = u32::MAX - 190;
            c.peers = vec![6];
            c.view = missing(u32::MAX - 190, 1);
        })
        .done();
    overflow(keeper, &script, outcomes::CONTINUE, REQUEST_OF_ONE)
}

/// Sends counted wrap here; the Rust, built with overflow checks, panics.
fn sends_counted(keeper: &dyn Keeper) -> Result<(), String> {
    let state = State {
        sends_counted: u32::MAX,
        ..syncing(CASES, 0)
    };
    let script = Build::put("sends counted", state)
        .call(kinds::SCHEDULED_TICK, |_| {})
        .done();
    overflow(keeper, &script, outcomes::CONTINUE, SYNC_INFO)?;
    let (_, state) = played(keeper, &script)?;
    holds("sends counted wrap", state.sends_counted == 0)
}

/// All of them; they need the Rust and a build with overflow checks.
pub fn shown(keeper: &dyn Keeper) -> Result<(), String> {
    d1(keeper)?;
    d2(keeper)?;
    d3(keeper)?;
    d4(keeper)?;
    our_sum(keeper)?;
    window_sum(keeper)?;
    sends_counted(keeper)
}

#[cfg(test)]
mod tests {
    use super::shown;
    use keeper_reference::Reference;

    #[test]
    fn differences_are_as_documented() {
        if keeper_oracle::SOURCE_FOUND {
            assert_eq!(shown(&Reference::plain()), Ok(()));
        }
    }
}
