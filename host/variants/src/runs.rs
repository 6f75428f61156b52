//! Faults in how a list of ids is counted off into requests (F-4).

use crate::{variant, Variant, RUNS};
use keeper_reference::{commands, Rules, Run, PLAIN};
use keeper_values::numbers::limits;
use keeper_values::{Id, TypeId};
use std::collections::BTreeSet;

/// Cuts a list in another way.
fn cut(fault: &'static str, runs: fn(&[Id]) -> Vec<&[Id]>) -> Variant {
    variant(RUNS, fault, Rules { runs, ..PLAIN })
}

/// Writes the requests of a list in another way.
fn written(fault: &'static str, requests: fn(&mut Run, u64, TypeId, &[Id])) -> Variant {
    variant(RUNS, fault, Rules { requests, ..PLAIN })
}

pub fn variants() -> Vec<Variant> {
    vec![
        cut("a list's short request goes first", |ids| {
            ids.rchunks(limits::RUN).rev().collect()
        }),
        cut("a list is cut into equal parts", |ids| {
            let parts = ids.len().div_ceil(limits::RUN);
            ids.chunks(ids.len().div_ceil(parts)).collect()
        }),
        cut("an id that repeats is counted once", different),
        cut(
            "a list's last request is filled up from the one before",
            |ids| {
                let mut runs = commands::runs(ids);
                if let Some(last) = runs.last_mut() {
                    *last = &ids[ids.len().saturating_sub(limits::RUN)..];
                }
                runs
            },
        ),
        cut(
            "a request begins with the last id of the one before",
            |ids| {
                let from = (0..ids.len()).step_by(limits::RUN - 1);
                let more = from.filter(|from| *from == 0 || from + 1 < ids.len());
                let run = |from: usize| &ids[from..ids.len().min(from + limits::RUN)];
                more.map(run).collect()
            },
        ),
        cut("a list ends with an empty request", |ids| {
            let mut runs = commands::runs(ids);
            runs.push(&[]);
            runs
        }),
        written(
            "every request takes a batch number of its own",
            |run, peer, type_id, ids| {
                for ids in commands::runs(ids) {
                    commands::requests(run, peer, type_id, ids);
                }
            },
        ),
        written(
            "a list's first request says how many ids the list has",
            |run, peer, type_id, ids| {
                let header = run.commands.bytes.len();
                commands::requests(run, peer, type_id, ids);
                let count = (ids.len() as u32).to_be_bytes();
                run.commands.bytes[header + 13..header + 17].copy_from_slice(&count);
            },
        ),
    ]
}

/// Runs of 400 different ids, each with whatever repeats one of them.
fn different(ids: &[Id]) -> Vec<&[Id]> {
    let mut runs = Vec::new();
    let mut from = 0;
    let mut counted = BTreeSet::new();
    for (at, id) in ids.iter().enumerate() {
        if counted.len() == limits::RUN && !counted.contains(id) {
            runs.push(&ids[from..at]);
            from = at;
            counted.clear();
        }
        counted.insert(id);
    }
    runs.push(&ids[from..]);
    runs
}
