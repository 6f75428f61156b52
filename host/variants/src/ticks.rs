//! Faults in rule 9: progress, checks and ticks.

use crate::{variant, Variant};
use keeper_reference::steps::{self, seek, sync_peer};
use keeper_reference::{sync, Rules, PLAIN};
use keeper_values::numbers::outcomes;
use keeper_values::Mode;

pub fn variants() -> Vec<Variant> {
    let fault = |fault, rules| variant("rule 9, ticks", fault, rules);
    vec![
        fault(
            "progress sends each time",
            Rules {
                progress: |run| {
                    run.state.progress_mark = false;
                    steps::progress(run)
                },
                ..PLAIN
            },
        ),
        fault(
            "a throttled try of progress is not used up",
            Rules {
                progress: |run| {
                    let before = run.state.last_send;
                    let used = run.state.progress_mark;
                    let outcome = steps::progress(run)?;
                    if run.state.last_send == before {
                        run.state.progress_mark = used;
                    }
                    Ok(outcome)
                },
                ..PLAIN
            },
        ),
        fault(
            "progress in synced sets the last progress",
            Rules {
                progress: |run| {
                    run.state.last_progress = run.inputs.clock;
                    steps::progress(run)
                },
                ..PLAIN
            },
        ),
        fault(
            "progress leaves the stalled set",
            Rules {
                progress: |run| {
                    let stalled = run.state.stalled.clone();
                    let outcome = steps::progress(run)?;
                    run.state.stalled = stalled;
                    Ok(outcome)
                },
                ..PLAIN
            },
        ),
        fault(
            "a check runs rule 5 in synced too",
            Rules {
                check: |run| {
                    sync::handle_delivery_check(run);
                    sync::advance_downloaded_height(run)?;
                    Ok(outcomes::CONTINUE)
                },
                ..PLAIN
            },
        ),
        fault(
            "a check runs no rule 5",
            Rules {
                check: |run| {
                    sync::handle_delivery_check(run);
                    Ok(outcomes::CONTINUE)
                },
                ..PLAIN
            },
        ),
        fault(
            "stalls at exactly the stall timeout",
            Rules {
                stalled: |run| {
                    let since = run.inputs.clock - run.state.last_progress;
                    since >= u64::from(run.state.settings.stall_timeout)
                },
                ..PLAIN
            },
        ),
        fault(
            "a stalled peer does not join the set",
            Rules {
                join_stalled: |_| {},
                ..PLAIN
            },
        ),
        fault(
            "the stalled peer joins a second time",
            Rules {
                join_stalled: |run| run.state.stalled.push(sync_peer(run)),
                ..PLAIN
            },
        ),
        fault(
            "a tick leaves the progress mark",
            Rules {
                tick_syncing: |run| {
                    let used = run.state.progress_mark;
                    let outcome = steps::tick_syncing(run)?;
                    run.state.progress_mark = used && run.state.mode == Mode::Syncing;
                    Ok(outcome)
                },
                ..PLAIN
            },
        ),
        fault(
            "a tick that stalls sends nothing",
            Rules {
                tick_syncing: |run| {
                    if steps::stalled(run) {
                        steps::join_stalled(run);
                        seek(run);
                        return Ok(outcomes::STALLED);
                    }
                    steps::tick_syncing(run)
                },
                ..PLAIN
            },
        ),
        fault(
            "a synced tick without peers stays in synced",
            Rules {
                tick_synced: |run| match run.first_peer() {
                    Some(_) => steps::tick_synced(run),
                    None => Ok(outcomes::CONTINUE),
                },
                ..PLAIN
            },
        ),
        fault(
            "a synced tick goes to the sync peer",
            Rules {
                tick_synced: |run| {
                    if let Some(first) = run.state.sync_peer {
                        if !run.inputs.peers.is_empty() {
                            run.inputs.peers.insert(0, first);
                        }
                    }
                    steps::tick_synced(run)
                },
                ..PLAIN
            },
        ),
        fault(
            "a synced tick runs no rule 5",
            Rules {
                tick_synced: |run| {
                    run.inputs.height = 0;
                    steps::tick_synced(run)
                },
                ..PLAIN
            },
        ),
        fault(
            "a section tick runs rule 4 before rule 5",
            Rules {
                section_tick: |run| {
                    sync::request_next_sections(run)?;
                    sync::advance_downloaded_height(run)?;
                    Ok(outcomes::CONTINUE)
                },
                ..PLAIN
            },
        ),
    ]
}
