//! Faults in rules 4 and 5.

use crate::{variant, Variant};
use keeper_reference::sync::{self, Stored};
use keeper_reference::{Refusal, Rules, PLAIN};
use keeper_values::{Row, TypeId};

pub fn variants() -> Vec<Variant> {
    let four = |fault, rules| variant("rule 4", fault, rules);
    let five = |fault, rules| variant("rule 5", fault, rules);
    vec![
        four(
            "a window of 191 heights",
            Rules {
                window_end: |downloaded, height| height.min(downloaded.saturating_add(191)),
                ..PLAIN
            },
        ),
        four(
            "a window of 193 heights",
            Rules {
                window_end: |downloaded, height| height.min(downloaded.saturating_add(193)),
                ..PLAIN
            },
        ),
        four(
            "the window's sum wraps",
            Rules {
                window_end: |downloaded, height| height.min(downloaded.wrapping_add(192)),
                ..PLAIN
            },
        ),
        four(
            "goes on past an absent header",
            Rules {
                window: |run| {
                    let end = sync::window_end(run.state.downloaded, run.inputs.height);
                    let mut missing = std::collections::BTreeMap::<TypeId, Vec<_>>::new();
                    for height in run.state.downloaded..end {
                        if let Row::Present(places) = run.read(height + 1)? {
                            for place in places.iter().filter(|place| !place.stored) {
                                missing.entry(place.type_id).or_default().push(place.id);
                            }
                        }
                    }
                    Ok(missing)
                },
                ..PLAIN
            },
        ),
        four(
            "asks for places that are stored",
            Rules {
                window: |run| {
                    let mut missing = sync::window(run)?;
                    let end = sync::window_end(run.state.downloaded, run.inputs.height);
                    for height in run.state.downloaded..end {
                        let Row::Present(places) = run.read(height + 1)? else {
                            break;
                        };
                        for place in places.iter().filter(|place| place.stored) {
                            missing.entry(place.type_id).or_default().push(place.id);
                        }
                    }
                    Ok(missing)
                },
                ..PLAIN
            },
        ),
        four(
            "rule 3 goes by the pairs when rule 4 calls it",
            Rules {
                request_next_sections: |run| {
                    let Some(peer) = run.first_peer() else {
                        return Ok(());
                    };
                    for (type_id, ids) in sync::window(run)? {
                        sync::request_announced(run, peer, type_id, &ids, Stored::ByPairs);
                    }
                    Ok(())
                },
                ..PLAIN
            },
        ),
        four(
            "reads nothing behind a shut gate",
            Rules {
                request_next_sections: |run| {
                    if run.inputs.gate {
                        sync::request_next_sections(run)
                    } else {
                        Ok(())
                    }
                },
                ..PLAIN
            },
        ),
        four(
            "reads the window with nobody listed",
            Rules {
                request_next_sections: |run| {
                    sync::window(run)?;
                    sync::request_next_sections(run)
                },
                ..PLAIN
            },
        ),
        four(
            "asks types falling",
            Rules {
                request_next_sections: |run| {
                    let Some(peer) = run.first_peer() else {
                        return Ok(());
                    };
                    for (type_id, ids) in sync::window(run)?.into_iter().rev() {
                        sync::request_announced(run, peer, type_id, &ids, Stored::ByPlaces);
                    }
                    Ok(())
                },
                ..PLAIN
            },
        ),
        four(
            "asks the last listed peer",
            Rules {
                request_next_sections: |run| {
                    run.inputs.peers.reverse();
                    let done = sync::request_next_sections(run);
                    run.inputs.peers.reverse();
                    done
                },
                ..PLAIN
            },
        ),
        five(
            "passes an absent header",
            Rules {
                complete: |row| *row == Row::Absent || sync::complete(row),
                ..PLAIN
            },
        ),
        five(
            "stops at a block without sections",
            Rules {
                complete: |row| *row != Row::Present(vec![]) && sync::complete(row),
                ..PLAIN
            },
        ),
        five(
            "goes by a block's first section",
            Rules {
                complete: |row| match row {
                    Row::Absent => false,
                    Row::Present(places) => places.first().is_none_or(|place| place.stored),
                },
                ..PLAIN
            },
        ),
        five(
            "passes one height at a time",
            Rules {
                advance_downloaded_height: |run| {
                    let start = run.state.downloaded;
                    sync::advance_downloaded_height(run)?;
                    run.state.downloaded = run.state.downloaded.min(start.saturating_add(1));
                    Ok(())
                },
                ..PLAIN
            },
        ),
        five(
            "reads a height above the chain",
            Rules {
                advance_downloaded_height: |run| {
                    sync::advance_downloaded_height(run)?;
                    match run.inputs.height.checked_add(1) {
                        Some(next) if run.state.downloaded < next => run.read(next).map(|_| ()),
                        _ => Ok(()),
                    }
                },
                ..PLAIN
            },
        ),
        five(
            "stops at the view's end without a 9",
            Rules {
                advance_downloaded_height: |run| match sync::advance_downloaded_height(run) {
                    Err(Refusal(9)) => Ok(()),
                    other => other,
                },
                ..PLAIN
            },
        ),
    ]
}
