//! How lists are cut into requests (F-4). The fixed list has one list of more than 400 ids; the directed streams have them
//! wherever a list is cut, and the oracle judges them.

use keeper_compare::cases::{script_lines, try_script};
use keeper_compare::report::Report;
use keeper_oracle::SOURCE_FOUND;
use keeper_play::record;
use keeper_reference::{commands, delivery, steps, sync, Reference, Rules, Run, PLAIN};
use keeper_streams::text::Line;
use keeper_streams::{directed, Script};
use keeper_values::numbers::{kinds, limits};
use keeper_values::{read_commands, Id, TypeId};
use std::collections::BTreeSet;
use std::iter::once;

/// A finished step: its kind, retried and fresh of its answer, and the ids in each of its batches.
type Lists = (u8, [u32; 2], Vec<usize>);

fn lists(script: &Script) -> Vec<Lists> {
    let lines = record(&Reference::plain(), &script_lines(script)).expect("can be played");
    let mut lists: Vec<Lists> = Vec::new();
    for pair in lines.windows(2) {
        if let [Line::Step(call, _), Line::Answer(numbers)] = pair {
            let sent = [numbers[2], numbers[3]].map(|count| count as u32);
            lists.push((call.kind, sent, Vec::new()));
        }
        if let ([_, Line::Command(command)], Some((.., sizes))) = (pair, lists.last_mut()) {
            let batch = usize::from(command.batch);
            sizes.resize(batch + 1, 0);
            sizes[batch] += command.ids.len();
        }
    }
    lists
}

#[test]
fn directed_streams_have_lists_of_these_sizes() {
    let met: BTreeSet<Lists> = directed::scripts().iter().flat_map(lists).collect();
    let has = |kind, counts, sizes: &[usize]| {
        let lists = (kind, counts, sizes.to_vec());
        assert!(met.contains(&lists), "{lists:?}");
    };
    for size in [399, 400, 401, 799, 800, 801, 1_024] {
        has(kinds::ANNOUNCED, [0, 0], &[size]);
        has(kinds::CHECK, [size as u32, 0], &[size]);
        has(kinds::CHECK, [0, size as u32], &[size]);
        has(kinds::LOST_PEER, [0, 0], &[size]);
    }
    for size in [399, 400, 401, 576] {
        has(kinds::SECTION_TICK, [0, 0], &[size]);
    }
    for (retried, fresh) in [(400, 399), (400, 400), (400, 401), (223, 801), (801, 223)] {
        let counts = [retried as u32, fresh as u32];
        has(kinds::CHECK, counts, &[retried, fresh]);
    }
    has(kinds::LOST_PEER, [0, 0], &[399, 400, 225]);
}

fn script(name: &str) -> Script {
    let mut scripts = directed::scripts().into_iter();
    let script = scripts.find(|script| script.name == name);
    script.unwrap_or_else(|| panic!("no stream {name}"))
}

fn tried(rules: Rules, script: &Script) -> Result<(), String> {
    try_script(&[&Reference { rules }], script, &mut Report::default())
}

#[test]
fn the_oracle_finds_a_wrong_cut() {
    if !SOURCE_FOUND {
        return;
    }
    let scripts = directed::scripts();
    let mut variants = keeper_variants::all();
    variants.retain(|variant| variant.place == keeper_variants::RUNS);
    assert_eq!(variants.len(), 8);
    for variant in variants {
        let differs = |script: &Script| tried(variant.keeper.rules, script).is_err();
        assert!(scripts.iter().any(differs), "{}", variant.fault);
    }
}

/// No list is cut.
static UNCUT: Rules = Rules {
    runs: |ids| vec![ids],
    ..PLAIN
};

/// Leaves the lists uncut that a part of a step sends.
fn uncut<T>(run: &mut Run, send: impl FnOnce(&mut Run) -> T) -> T {
    let rules = std::mem::replace(&mut run.rules, &UNCUT);
    let sent = send(run);
    run.rules = rules;
    sent
}

fn counted_on(run: &mut Run, peer: u64, type_id: TypeId, ids: &[Id]) {
    let written = read_commands(&run.commands.bytes).unwrap_or_default();
    let last = written.last().map_or(0, |last| last.ids.len());
    let room = limits::RUN - last % limits::RUN;
    let (first, rest) = ids.split_at(ids.len().min(room));
    for ids in once(first).chain(commands::runs(rest)) {
        run.commands.request(peer, type_id, ids);
    }
    run.commands.batches += 1;
}

fn cut_before_drops(run: &mut Run, peer: u64, type_id: TypeId, ids: &[Id], stored: sync::Stored) {
    let needed = |ids| sync::needed(run, type_id, ids, stored);
    let mut parts: Vec<Vec<Id>> = commands::runs(ids).into_iter().map(needed).collect();
    parts.retain(|part| run.inputs.gate && !part.is_empty());
    for part in &parts {
        delivery::mark_requested(run, part, peer, type_id);
        run.commands.request(peer, type_id, part);
    }
    run.commands.batches += u16::from(!parts.is_empty());
}

/// Faults that no stream of the fixed list tells, each with a directed stream that does.
const UNTOLD_BY_THE_LIST: [(&str, &str, Rules); 8] = [
    (
        "a list of whole requests ends with an empty one",
        "runs of 400, failing []",
        Rules {
            runs: |ids| {
                let mut runs = commands::runs(ids);
                if ids.len() % limits::RUN == 0 {
                    runs.push(&[]);
                }
                runs
            },
            ..PLAIN
        },
    ),
    (
        "a list is cut once at most",
        "runs of 801, failing []",
        Rules {
            runs: |ids| {
                let (first, rest) = ids.split_at(ids.len().min(limits::RUN));
                let runs = [first, rest].into_iter();
                runs.filter(|run| !run.is_empty()).collect()
            },
            ..PLAIN
        },
    ),
    (
        "retries are not cut",
        "runs of 401, failing []",
        Rules {
            send_retries: |run, retries| uncut(run, |run| sync::send_retries(run, retries)),
            ..PLAIN
        },
    ),
    (
        "fresh ids are not cut",
        "fresh: runs of 401, failing []",
        Rules {
            send_fresh: |run, fresh| uncut(run, |run| sync::send_fresh(run, fresh)),
            ..PLAIN
        },
    ),
    (
        "a lost peer's ids are not cut",
        "runs of 401, failing []",
        Rules {
            lost_peer: |run| uncut(run, steps::lost_peer),
            ..PLAIN
        },
    ),
    (
        "a window's sections are not cut",
        "window of 401 sections of one type, kind 11",
        Rules {
            request_next_sections: |run| uncut(run, sync::request_next_sections),
            ..PLAIN
        },
    ),
    (
        "a list is counted on from the one before",
        "headers to one peer, 1 retried and 400 fresh, failing []",
        Rules {
            requests: counted_on,
            ..PLAIN
        },
    ),
    (
        "a list is cut before known ids are dropped",
        "runs of 400 behind a stored id and a pending one",
        Rules {
            request_announced: cut_before_drops,
            ..PLAIN
        },
    ),
];

#[test]
fn directed_streams_find_what_the_fixed_list_does_not() {
    if !SOURCE_FOUND {
        return;
    }
    for (fault, name, rules) in UNTOLD_BY_THE_LIST {
        let script = script(name);
        assert_eq!(tried(PLAIN, &script), Ok(()));
        let told = tried(rules, &script).expect_err(fault);
        assert!(told.contains("sends\n  Rust"), "{fault}: {told}");
    }
}

#[test]
fn a_batch_is_looked_at_behind_a_failed_send() {
    if !SOURCE_FOUND {
        return;
    }
    // 801 ids as 400, 1 and 400: with the first send failed the Rust sends no other.
    let rules = Rules {
        runs: |ids| {
            let (first, rest) = ids.split_at(ids.len().min(limits::RUN));
            let rest = rest.rchunks(limits::RUN).rev();
            once(first).chain(rest).collect()
        },
        ..PLAIN
    };
    let script = script("runs of 801, failing [0]");
    let told = tried(rules, &script).expect_err("a wrong cut");
    let expected = "a batch of requests with [400, 1, 400] ids";
    assert!(told.ends_with(expected), "{told}");
}
