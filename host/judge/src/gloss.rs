//! A call in words: its kind, its clock, and what the step reads of the rest.

use crate::names::{type_name, Names};
use crate::stream::{entries, id, view_pairs, Call, Opening, VIEW_HEAD, VIEW_ROW};
use crate::value::listed;
use keeper_values::numbers::kinds::{self, *};
use keeper_values::numbers::widths::{ID, PAIR, PEER};
use keeper_values::Arguments;

pub fn opening(opening: &Opening) -> String {
    let settings = &opening.settings;
    format!(
        "open: clock {}, height {}; timeout {}, check limit {}, send interval {}, stall timeout {}",
        opening.clock,
        opening.height,
        settings.timeout,
        settings.max_checks,
        settings.min_sync_send_interval,
        settings.stall_timeout
    )
}

/// The arguments by which steps differ, and who reads them (docs/LAYOUT.md, `request_keeper_step`).
fn reads(kind: u8, by: &[u8]) -> bool {
    by.contains(&kind)
}

const GATE: &[u8] = &[
    NEEDED,
    REORG,
    ANNOUNCED,
    SYNC_INFO,
    LOST_PEER,
    PROGRESS,
    CHECK,
    SECTION_TICK,
];
const HEIGHT: &[u8] = &[
    START,
    REORG,
    ANNOUNCED,
    SYNC_INFO,
    RECEIVED,
    PROGRESS,
    CHECK,
    SCHEDULED_TICK,
    SECTION_TICK,
];
const PEERS: &[u8] = &[
    PICK,
    REORG,
    ANNOUNCED,
    SYNC_INFO,
    LOST_PEER,
    PROGRESS,
    CHECK,
    SCHEDULED_TICK,
    SECTION_TICK,
];
const STORED: &[u8] = &[NEEDED, ANNOUNCED, LOST_PEER, CHECK];
const IDS: &[u8] = &[NEEDED, ANNOUNCED, RECEIVED, EVICTED];

fn peers(bytes: &[u8]) -> String {
    let peer = |bytes: &[u8]| {
        bytes
            .iter()
            .fold(0, |peer, byte| peer << 8 | u64::from(*byte))
    };
    let peers: Vec<String> = entries(bytes, PEER)
        .map(|bytes| peer(bytes).to_string())
        .collect();
    listed(&peers, 0)
}

fn ids(bytes: &[u8], names: &Names) -> String {
    listed(
        &names.ids(&entries(bytes, ID).filter_map(id).collect::<Vec<_>>()),
        0,
    )
}

fn stored(bytes: &[u8], names: &Names) -> String {
    let pairs = entries(bytes, PAIR).filter_map(|pair| names.pair(pair));
    listed(&pairs.collect::<Vec<_>>(), 0)
}

/// One word a row: absent, or its sections, `+` before a stored one.
fn rows(view: &[u8], names: &Names) -> String {
    let Some((head, rows)) = view.split_at_checked(VIEW_HEAD) else {
        return "none".to_string();
    };
    let row = |row: &[u8]| {
        if row[0] == 255 {
            return "absent".to_string();
        }
        let alone = [head, row].concat();
        let places = view_pairs(&alone).into_iter().filter_map(|at| {
            let stored = alone.get(at + PAIR) == Some(&1);
            let pair = names.pair(alone.get(at..at + PAIR)?)?;
            Some(if stored { format!("+{pair}") } else { pair })
        });
        format!("[{}]", places.collect::<Vec<_>>().join(" "))
    };
    let first = head
        .iter()
        .fold(0, |first, byte| first << 8 | u64::from(*byte));
    let rows: Vec<String> = entries(rows, VIEW_ROW).map(row).collect();
    if rows.is_empty() {
        return "none".to_string();
    }
    format!("from {first} {}", listed(&rows, 0))
}

fn sync_info(step: &Arguments, names: &Names) -> Vec<String> {
    if step.parsed != 1 {
        return vec!["not parsed".to_string()];
    }
    let tip = if step.has_tip == 1 {
        format!("tip {}", step.tip)
    } else {
        "no tip".to_string()
    };
    let continuation = format!("continuation {}", ids(&step.continuation, names));
    vec![tip, continuation]
}

fn step(step: &Arguments, names: &Names) -> String {
    let kind = step.kind;
    let mut said = vec![format!("clock {}", step.clock)];
    if reads(kind, GATE) && step.gate != 1 {
        said.push("gate shut".to_string());
    }
    if reads(kind, HEIGHT) {
        said.push(format!("chain height {}", step.height));
    }
    match kind {
        ANNOUNCED | SYNC_INFO => said.push(format!("from peer {}", step.peer)),
        LOST_PEER => said.push(format!("peer {} lost", step.peer)),
        REORG => said.push(format!("fork point {}", step.fork)),
        _ => {}
    }
    if reads(kind, &[NEEDED, ANNOUNCED]) {
        said.push(type_name(step.type_id));
    }
    if reads(kind, IDS) {
        said.push(format!("ids {}", ids(&step.ids, names)));
    }
    if kind == SYNC_INFO {
        said.extend(sync_info(step, names));
    }
    if reads(kind, STORED) && !step.stored.is_empty() {
        said.push(format!("stored {}", stored(&step.stored, names)));
    }
    if reads(kind, PEERS) {
        said.push(format!("peers {}", peers(&step.peers)));
    }
    if reads(kind, HEIGHT) && step.view.len() > VIEW_HEAD {
        said.push(format!("rows {}", rows(&step.view, names)));
    }
    format!("{}: {}", kinds::name(kind), said.join(", "))
}

pub fn call(call: &Call, names: &Names) -> String {
    match call {
        Call::Step(arguments) => step(arguments, names),
        Call::Ask(0) => "question 0: what may the next check read?".to_string(),
        Call::Ask(1) => "question 1: what may a lost sync peer read?".to_string(),
        Call::Ask(flag) => format!("question {flag}"),
    }
}
