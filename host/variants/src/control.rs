//! Faults in rule 8 and in the entries of rule 9.

use crate::{variant, Variant};
use keeper_reference::steps::{self, sync_peer};
use keeper_reference::sync::{self, Stored};
use keeper_reference::{delivery, Rules, PLAIN};
use keeper_values::numbers::outcomes;
use keeper_values::Mode;

pub fn variants() -> Vec<Variant> {
    let mut all = control();
    all.extend(entries());
    all
}

fn control() -> Vec<Variant> {
    let fault = |fault, rules| variant("rule 8", fault, rules);
    vec![
        fault(
            "a needed modifier is asked of the first listed peer",
            Rules {
                needed_modifier: |run| {
                    let peer = run.first_peer().unwrap_or_else(|| sync_peer(run));
                    let ids = run.inputs.ids.clone();
                    let type_id = run.inputs.type_id;
                    sync::request_announced(run, peer, type_id, &ids, Stored::ByPairs);
                    Ok(outcomes::CONTINUE)
                },
                ..PLAIN
            },
        ),
        fault(
            "a reorg raises the downloaded height to the fork point",
            Rules {
                reorg: |run| {
                    run.state.downloaded = run.inputs.fork;
                    steps::reorg(run)
                },
                ..PLAIN
            },
        ),
        fault(
            "a reorg leaves the downloaded height",
            Rules {
                reorg: |run| {
                    run.inputs.fork = u32::MAX;
                    steps::reorg(run)
                },
                ..PLAIN
            },
        ),
        fault(
            "a reorg runs rule 4 before rule 5",
            Rules {
                reorg: |run| {
                    run.state.downloaded = run.state.downloaded.min(run.inputs.fork);
                    delivery::purge_all(run);
                    sync::request_next_sections(run)?;
                    sync::advance_downloaded_height(run)?;
                    Ok(outcomes::CONTINUE)
                },
                ..PLAIN
            },
        ),
        fault(
            "a reorg purges after it has asked",
            Rules {
                reorg: |run| {
                    run.state.downloaded = run.state.downloaded.min(run.inputs.fork);
                    sync::advance_downloaded_height(run)?;
                    sync::request_next_sections(run)?;
                    delivery::purge_all(run);
                    Ok(outcomes::CONTINUE)
                },
                ..PLAIN
            },
        ),
    ]
}

fn entries() -> Vec<Variant> {
    let fault = |fault, rules| variant("rule 9, entries", fault, rules);
    vec![
        fault(
            "start runs no rule 5",
            Rules {
                start: |run| {
                    run.state.mode = Mode::Seeking;
                    Ok(outcomes::CONTINUE)
                },
                ..PLAIN
            },
        ),
        fault(
            "picking leaves the sends counted",
            Rules {
                pick: |run| {
                    let counted = run.state.sends_counted;
                    let outcome = steps::pick(run)?;
                    if run.state.mode == Mode::Syncing {
                        run.state.sends_counted = counted.wrapping_add(run.state.sends_counted);
                    }
                    Ok(outcome)
                },
                ..PLAIN
            },
        ),
        fault(
            "picking leaves the last progress",
            Rules {
                pick: |run| {
                    let last = run.state.last_progress;
                    let outcome = steps::pick(run)?;
                    run.state.last_progress = last;
                    Ok(outcome)
                },
                ..PLAIN
            },
        ),
        fault(
            "a fruitless pick sets the last progress",
            Rules {
                pick: |run| {
                    run.state.last_progress = run.inputs.clock;
                    steps::pick(run)
                },
                ..PLAIN
            },
        ),
        fault(
            "an entry leaves the progress mark",
            Rules {
                enter_syncing: |run, peer| {
                    let used = run.state.progress_mark;
                    steps::enter_syncing(run, peer);
                    run.state.progress_mark = used;
                },
                ..PLAIN
            },
        ),
        fault(
            "a throttled entry counts as one that sent",
            Rules {
                enter_syncing: |run, peer| {
                    steps::enter_syncing(run, peer);
                    run.state.entry_mark = true;
                },
                ..PLAIN
            },
        ),
        fault(
            "an entry sends nothing",
            Rules {
                enter_syncing: |run, peer| {
                    run.state.mode = Mode::Syncing;
                    run.state.sync_peer = Some(peer);
                    run.state.progress_mark = false;
                },
                ..PLAIN
            },
        ),
        fault(
            "entry to synced runs rule 5 first",
            Rules {
                reach_synced: |run| {
                    if run.state.mode == Mode::Syncing {
                        sync::advance_downloaded_height(run)?;
                    }
                    steps::reach_synced(run)
                },
                ..PLAIN
            },
        ),
        fault(
            "entry to synced asks for nothing",
            Rules {
                reach_synced: |run| {
                    run.state.mode = Mode::Synced;
                    run.state.progress_mark = false;
                    Ok(outcomes::SYNCED)
                },
                ..PLAIN
            },
        ),
        fault(
            "Synced in synced runs rule 4 again",
            Rules {
                reach_synced: |run| {
                    run.state.mode = Mode::Syncing;
                    steps::reach_synced(run)
                },
                ..PLAIN
            },
        ),
        fault(
            "Synced in synced is Continue",
            Rules {
                reach_synced: |run| {
                    if run.state.mode == Mode::Synced {
                        return Ok(outcomes::CONTINUE);
                    }
                    steps::reach_synced(run)
                },
                ..PLAIN
            },
        ),
        fault(
            "switching resets as picking does",
            Rules {
                switch_peer: |run| {
                    run.state.last_progress = run.inputs.clock;
                    run.state.sends_counted = 0;
                    steps::switch_peer(run)
                },
                ..PLAIN
            },
        ),
        fault(
            "switching leaves the stalled set",
            Rules {
                switch_peer: |run| {
                    let stalled = run.state.stalled.clone();
                    let outcome = steps::switch_peer(run)?;
                    run.state.stalled = stalled;
                    Ok(outcome)
                },
                ..PLAIN
            },
        ),
    ]
}
