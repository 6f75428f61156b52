//! Faults in what an empty header list says (F-5).

use crate::{variant, Variant, HEADERS};
use keeper_reference::steps::{self, is_sync_peer};
use keeper_reference::{Rules, PLAIN};
use keeper_values::numbers::outcomes;
use keeper_values::Mode;

pub fn variants() -> Vec<Variant> {
    let fault = |fault, empty_headers| {
        let rules = Rules {
            empty_headers,
            ..PLAIN
        };
        variant(HEADERS, fault, rules)
    };
    vec![
        // As it was published.
        fault("an empty header list is Synced, from any peer", |run| {
            (run.rules.reach_synced)(run)
        }),
        fault(
            "in synced an empty header list is Synced, from any peer",
            |run| match run.state.mode {
                Mode::Synced => Ok(outcomes::SYNCED),
                _ => steps::empty_headers(run),
            },
        ),
        fault(
            "an empty header list is Synced from the first listed peer",
            |run| match run.first_peer() == Some(run.inputs.peer) {
                true => (run.rules.reach_synced)(run),
                false => steps::empty_headers(run),
            },
        ),
        fault("an empty header list is never Synced", |_| {
            Ok(outcomes::CONTINUE)
        }),
        fault(
            "an empty header list from another peer gets a reply",
            |run| {
                if !is_sync_peer(run) {
                    let peer = run.inputs.peer;
                    (run.rules.send_sync_info)(run, peer);
                }
                steps::empty_headers(run)
            },
        ),
        fault(
            "an empty header list from another peer runs rule 4",
            |run| {
                if !is_sync_peer(run) {
                    (run.rules.request_next_sections)(run)?;
                }
                steps::empty_headers(run)
            },
        ),
    ]
}
