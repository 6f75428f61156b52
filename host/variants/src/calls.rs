//! Faults in refusals 4 to 8: the call, its lists and its view.

use crate::{variant, Variant};
use keeper_reference::{entries, inputs, steps, Refusal, Rules, PLAIN};
use keeper_values::numbers::widths::{PAIR, PLACE, ROW};
use keeper_values::numbers::{kinds, limits};
use keeper_values::Mode;

pub fn variants() -> Vec<Variant> {
    let six = |fault, rules| variant("refusal 6", fault, rules);
    let eight = |fault, rules| variant("refusal 8", fault, rules);
    vec![
        variant(
            "refusal 4",
            "a clock that stands still is refused",
            Rules {
                clock_fits: |state, clock| clock > state.last_clock,
                ..PLAIN
            },
        ),
        variant(
            "refusal 5",
            "section ticks are taken in syncing",
            Rules {
                kind_fits: |mode, kind| {
                    steps::kind_fits(mode, kind)
                        || (kind == kinds::SECTION_TICK && mode == Mode::Syncing)
                },
                ..PLAIN
            },
        ),
        variant(
            "refusal 5",
            "an unknown kind does nothing",
            Rules {
                kind_fits: |mode, kind| steps::kind_fits(mode, kind) || kind > kinds::LAST,
                ..PLAIN
            },
        ),
        variant(
            "refusal 5",
            "the ended core takes the end again",
            Rules {
                kind_fits: |mode, kind| {
                    steps::kind_fits(mode, kind) || (mode == Mode::Ended && kind == 16)
                },
                ..PLAIN
            },
        ),
        variant(
            "refusal 5",
            "flags of a sync info are looked at in a sync info only",
            Rules {
                flags_fit_call: |call| {
                    call.gate <= 1 && (call.kind != kinds::SYNC_INFO || entries::flags_fit(call))
                },
                ..PLAIN
            },
        ),
        variant(
            "refusal 5",
            "any other byte than 0 is an open gate",
            Rules {
                flags_fit_call: |call| call.parsed <= 1 && call.has_tip <= 1,
                ..PLAIN
            },
        ),
        variant(
            "refusal 5",
            "a send failure is taken at any time in syncing",
            Rules {
                failure_fits: |_, _| true,
                ..PLAIN
            },
        ),
        six(
            "1,025 ids are taken",
            Rules {
                ids_fit: |ids| ids.len().is_multiple_of(32) && ids.len() <= 32 * 1_025,
                ..PLAIN
            },
        ),
        six(
            "1,024 ids are refused",
            Rules {
                ids_fit: |ids| inputs::ids_fit(ids) && ids.len() < 32 * 1_024,
                ..PLAIN
            },
        ),
        six(
            "a part of an id is passed over",
            Rules {
                ids_fit: |ids| ids.len() / 32 <= limits::IDS,
                ..PLAIN
            },
        ),
        six(
            "needed modifiers may be many",
            Rules {
                needed_fits: |_| true,
                ..PLAIN
            },
        ),
        six(
            "401 continuation ids are taken",
            Rules {
                continuation_fits: |ids| ids.len().is_multiple_of(32) && ids.len() <= 32 * 401,
                ..PLAIN
            },
        ),
        six(
            "a stored pair may stand twice",
            Rules {
                stored_fits: |pairs| {
                    let mut once: Vec<&[u8]> = pairs.chunks(PAIR).collect();
                    once.dedup();
                    inputs::stored_fits(&once.concat())
                },
                ..PLAIN
            },
        ),
        six(
            "the order of stored pairs is not looked at",
            Rules {
                stored_fits: |pairs| {
                    pairs.len().is_multiple_of(PAIR) && pairs.len() <= PAIR * limits::STORED
                },
                ..PLAIN
            },
        ),
        variant(
            "refusal 7",
            "129 peers are taken",
            Rules {
                peers_fit: |peers| peers.len().is_multiple_of(8) && peers.len() <= 8 * 129,
                ..PLAIN
            },
        ),
        variant(
            "refusal 7",
            "128 peers are refused",
            Rules {
                peers_fit: |peers| inputs::peers_fit(peers) && peers.len() < 8 * 128,
                ..PLAIN
            },
        ),
        eight(
            "rows past height 2^32 - 1 are taken",
            Rules {
                view_fits: |view| match view.split_first_chunk::<4>() {
                    Some((_, rows)) => {
                        rows.len().is_multiple_of(ROW)
                            && rows.chunks_exact(ROW).all(inputs::row_fits)
                    }
                    None => false,
                },
                ..PLAIN
            },
        ),
        eight(
            "a row at height 2^32 - 1 is refused",
            Rules {
                view_fits: |view| {
                    let first = view
                        .first_chunk::<4>()
                        .map(|first| u32::from_be_bytes(*first));
                    let rows = view.len().saturating_sub(4) / ROW;
                    inputs::view_fits(view)
                        && first.is_some_and(|first| u64::from(first) + (rows as u64) < 1 << 32)
                },
                ..PLAIN
            },
        ),
        eight(
            "an empty view is taken",
            Rules {
                view_fits: |view| view.is_empty() || inputs::view_fits(view),
                ..PLAIN
            },
        ),
        eight(
            "only the first row is looked at",
            Rules {
                view_fits: |view| {
                    inputs::view_fits(&view[..view.len().min(4 + ROW)])
                        && (view.len() - 4).is_multiple_of(ROW)
                },
                ..PLAIN
            },
        ),
        eight(
            "a stored byte of 2 is taken for stored",
            Rules {
                view_fits: |view| {
                    let mut view = view.to_vec();
                    for row in view.get_mut(4..).unwrap_or_default().chunks_exact_mut(ROW) {
                        for flag in [PLACE, 2 * PLACE, 3 * PLACE] {
                            row[flag] = if row[flag] == 2 { 1 } else { row[flag] };
                        }
                    }
                    inputs::view_fits(&view)
                },
                ..PLAIN
            },
        ),
        eight(
            "unused places are not looked at",
            Rules {
                view_fits: |view| {
                    let mut view = view.to_vec();
                    for row in view.iter_mut().skip(4).collect::<Vec<_>>().chunks_mut(ROW) {
                        let used = PLACE * usize::from(*row[0]) + 1;
                        if *row[0] <= 3 && row.len() == ROW {
                            row[used..].iter_mut().for_each(|byte| **byte = 0);
                        }
                    }
                    inputs::view_fits(&view)
                },
                ..PLAIN
            },
        ),
        variant(
            "order of refusals",
            "7 comes before 6",
            Rules {
                arguments_fit: |rules, state, call| match entries::arguments_fit(rules, state, call)
                {
                    Err(Refusal(6)) if !inputs::peers_fit(&call.peers) => Err(Refusal(7)),
                    other => other,
                },
                ..PLAIN
            },
        ),
        variant(
            "order of refusals",
            "5 comes before 4",
            Rules {
                arguments_fit: |rules, state, call| match entries::arguments_fit(rules, state, call)
                {
                    Err(Refusal(4)) if !steps::kind_fits(state.mode, call.kind) => Err(Refusal(5)),
                    other => other,
                },
                ..PLAIN
            },
        ),
        variant(
            "order of refusals",
            "lists that a step does not read are not looked at",
            Rules {
                arguments_fit: |rules, state, call| match entries::arguments_fit(rules, state, call)
                {
                    Err(Refusal(6..=8)) if call.kind == kinds::OTHER_MESSAGE => Ok(()),
                    other => other,
                },
                ..PLAIN
            },
        ),
    ]
}
