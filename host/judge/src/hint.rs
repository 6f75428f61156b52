//! Which sentence of document 01, or of document 02 where that has changed it, speaks of a field that differs.

use crate::rows::Field;
use keeper_values::numbers::kinds;

const REFUSALS: &str =
    "\"Where a step can be turned back\": checked in the order of its table, and \
                        given exactly for what stands there";

const RULE_2: &str =
    "rule 2: \"below `min_sync_send_interval` since the last send, nothing\"; the \
                      send clock is changed only by this rule and by picking";

const RULE_5: &str =
    "rule 5: \"past each next height, up to chain height, whose header is present \
                      and whose sections are all stored\"";

/// Where a retry goes.
macro_rules! target {
    () => {
        "document 02, F-8: \"Take the first listed peer neither failed nor stalled; else the first listed \
         peer other than the failed one; else the failed one\""
    };
}

/// Rule 6 and `check_timeouts`.
fn check(field: Field, part: Option<&str>) -> Option<&'static str> {
    Some(match (field, part) {
        (Field::Pending, Some("stamp")) => {
            "delivery.rs: a retried id has \"stamp = this clock\"; rule 6: \"Gate shut: clocks and \
             checks still move, peer and sends don't\""
        }
        (Field::Pending, Some("peer")) => concat!(
            target!(),
            "; behind a shut gate the peer stays; a fresh id has the first listed peer"
        ),
        (Field::Retried, _) | (Field::Pending, Some("checks")) => {
            "delivery.rs: \"Expired: clock − stamp >= timeout\", \"checks rise by 1\"; rule 6: \
             \"Gate shut: clocks and checks still move, peer and sends don't\""
        }
        (Field::Abandoned | Field::Pending, _) => {
            "delivery.rs: \"checks rise by 1; at checks >= `max_checks` the id is abandoned, else \
             retried with stamp = this clock\""
        }
        (Field::Forgotten, _) => {
            "delivery.rs: \"an expired transaction is forgotten, its checks uncounted\"; a type is compared \
             whole: 258 is no transaction (document 02, F-6)"
        }
        (Field::Fresh | Field::Evicted, _) => {
            "delivery.rs: \"The next check hands that list out whole as fresh\"; rule 6: \"No peer \
             or a shut gate loses them\""
        }
        (Field::Command, _) => concat!(
            "rule 6: \"Batches go by target, then type, in runs as in rule 3\"; \"Then fresh ids \
             go out as headers to the first listed peer through rule 3\"; the target of a retry: ",
            target!()
        ),
        (Field::Downloaded, _) => "rule 9: \"A check in syncing also runs rule 5, in synced not\"",
        _ => return None,
    })
}

fn reorg(field: Field) -> Option<&'static str> {
    Some(match field {
        Field::Evicted => "delivery.rs: \"`purge_all` spares the evicted list\"",
        Field::Downloaded => {
            "rule 8: \"downloaded falls to the fork point if above it, pending is purged, then \
             rules 5 and 4\""
        }
        Field::Command | Field::Pending => {
            "rule 8: \"pending is purged, then rules 5 and 4\"; rule 4: the window and \"With no \
             outbound peer nothing is requested\""
        }
        _ => return None,
    })
}

fn sync_info(field: Field) -> Option<&'static str> {
    Some(match field {
        Field::Outcome | Field::Mode | Field::SyncPeer => {
            "rule 7: \"sync peer with tip <= ours: Synced; else tip > ours + 1: BehindPeer; else \
             Continue\""
        }
        Field::KnownTip => {
            "rule 7: \"the known tip rises to the peer's\"; the tip is read only if parsing worked"
        }
        Field::Command => {
            "rule 7: continuation ids \"are announced to the sender, before any reply\"; \"A sync \
             info's Continue replies with rule 2\""
        }
        Field::Stalled => {
            "rule 9: \"BehindPeer makes that peer the sync peer, empties the stalled set and \
             enters syncing anew, without the resets of picking\""
        }
        _ => return None,
    })
}

fn announced(field: Field) -> Option<&'static str> {
    Some(match field {
        Field::Outcome | Field::Mode => {
            "document 02, F-5: \"an empty header list from the sync peer gives Synced; from any \
             other peer it gives Continue, with no reply\""
        }
        _ => return None,
    })
}

fn tick(field: Field) -> Option<&'static str> {
    Some(match field {
        Field::Outcome | Field::Mode | Field::Stalled | Field::SyncPeer => {
            "rule 9: \"Stalled if clock − last progress is strictly above `stall_timeout`; the \
             stalled peer joins the set and the mode is seeking\"; \"In synced it sends to the \
             first listed peer, then runs rule 5; with no peer listed the mode is seeking\""
        }
        Field::Downloaded => {
            "rule 9: the scheduled tick runs rule 5 in synced, after it has sent, and not in syncing"
        }
        _ => return None,
    })
}

fn progress(field: Field) -> Option<&'static str> {
    Some(match field {
        Field::Command | Field::ProgressMark | Field::LastProgress | Field::Stalled => {
            "\"Progress runs rule 4; in syncing it first sets last progress to the clock and \
             empties the stalled set, and afterwards tries to send, but not again before the next \
             entry or scheduled tick\""
        }
        _ => return None,
    })
}

/// By the kind of step and the field.
fn by_kind(kind: u8, field: Field, part: Option<&str>) -> Option<&'static str> {
    match kind {
        kinds::CHECK => check(field, part),
        kinds::REORG => reorg(field),
        kinds::ANNOUNCED => announced(field),
        kinds::SYNC_INFO => sync_info(field),
        kinds::SCHEDULED_TICK => tick(field),
        kinds::PROGRESS => progress(field),
        _ => None,
    }
}

/// What is said of a step, whatever the field.
fn of_kind(kind: u8) -> Option<&'static str> {
    Some(match kind {
        kinds::START => "rule 9: \"Start runs rule 5 if the chain height is above 0\"",
        kinds::PICK => {
            "rule 1: \"first listed peer not stalled. If none, the stalled set is emptied, even \
             for an empty list, and the first listed is taken\"; picking \"then sets last progress \
             to the clock and the send count to 0\"; entry to syncing sends by rule 2"
        }
        kinds::NEEDED => "rule 8: \"a needed modifier goes through rule 3 to the sync peer\"",
        kinds::REORG => "rule 8, and rules 5 and 4",
        kinds::ANNOUNCED => {
            "rule 7: \"Announced headers, sections and transactions use rule 3, to the sender\"; \
             document 02, F-5, for an empty header list; F-6: \"no other type is requested from an \
             announcement\"; rule 3: \"gate shut, nothing. Drop ids \
             pending before the call, then stored ones. Mark the rest, then send\"; entry to synced \
             runs rule 4"
        }
        kinds::SYNC_INFO => "rule 7, sync info",
        kinds::OTHER_MESSAGE => "rule 7: \"Other messages do nothing\"",
        kinds::LOST_PEER => {
            "rule 9: \"Losing the sync peer re-requests its ids (rule 3, types rising, first listed \
             peer) in syncing only; in synced they stay pending. Then the mode is seeking\""
        }
        kinds::RECEIVED => "received ids are \"removed from pending, then rule 5\"",
        kinds::EVICTED => {
            "delivery.rs: \"`schedule_rerequest` removes pending ids and appends every given id to \
             the evicted list, repeats included\""
        }
        kinds::PROGRESS => "\"Progress runs rule 4\"",
        kinds::CHECK => "rule 6",
        kinds::SCHEDULED_TICK => "rule 9, scheduled tick",
        kinds::SECTION_TICK => "\"Only synced: section tick (rules 5 and 4)\"",
        kinds::SEND_FAILURE => {
            "rule 9: \"if the host reports that this send failed, as the next step, the mode is \
             seeking\""
        }
        kinds::END_OF_STREAM => {
            "\"Seeking: [..] end of stream, after which the mode is ended and takes no step\"; in \
             syncing and synced \"end of stream (to seeking)\""
        }
        _ => return None,
    })
}

/// The place to read; `kind` is the step's, none for an opening or a question.
pub fn hint(kind: Option<u8>, field: Field, part: Option<&str>) -> Option<String> {
    let own = kind.and_then(|kind| by_kind(kind, field, part));
    let general = match field {
        Field::Number => Some(REFUSALS),
        Field::LastSend | Field::SendsCounted => Some(RULE_2),
        Field::Downloaded => Some(RULE_5),
        Field::EntryMark => Some(
            "docs/LAYOUT.md: the entry mark is 1 if \"the last finished step was an entry to \
             syncing that sent\"",
        ),
        Field::LastClock => {
            Some("docs/LAYOUT.md: the last clock is \"the last finished step's, or the opening's\"")
        }
        Field::Pairs => Some(
            "\"each evicted id as a header, or each non-transaction id pending from the sync peer\", \
             strictly rising; \"no sync peer, no pairs\"",
        ),
        _ => None,
    };
    let opening = kind.is_none().then_some(
        "\"Opening is given the settings, a clock and the start height, which becomes the \
         downloaded height; its clock is the last progress, last send and last clock; all else \
         starts 0 or empty, mode new\"",
    );
    let found = own.or(general).or(kind.and_then(of_kind)).or(opening)?;
    let elsewhere = ["docs/", "document 02"];
    let place = if elsewhere.iter().any(|place| found.starts_with(place)) {
        ""
    } else {
        "document 01, "
    };
    Some(format!("{place}{found}"))
}
