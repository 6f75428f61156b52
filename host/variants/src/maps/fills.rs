//! What is filled in, and 9.

use super::f1;
use crate::Variant;
use keeper_reference::{inputs, map, sync, Refusal, Rules, PLAIN};
use keeper_values::Row;

pub fn variants() -> Vec<Variant> {
    vec![
        f1(
            "a window of 191 heights is filled",
            Rules {
                filled: |rules, view, chain, heights| {
                    let mut cells = map::filled(rules, view, chain, heights)?;
                    if let Some(last) = cells.last_mut() {
                        *last = None;
                    }
                    Ok(cells)
                },
                ..PLAIN
            },
        ),
        f1(
            "a height above the chain height is filled from its row",
            Rules {
                cell: |view, _, height| map::cell(view, u32::MAX, height),
                ..PLAIN
            },
        ),
        f1(
            "a height past 2^32 - 1 is looked for from 0 on",
            Rules {
                view_shows: |view, chain, heights| {
                    let mut read = heights.map(|height| height % (1 << 32));
                    read.all(|height| map::view_shows(view, chain, height..=height))
                },
                ..PLAIN
            },
        ),
        f1(
            "no section is stored after a fill",
            Rules {
                cell: |view, chain, height| {
                    let places = map::cell(view, chain, height)?.len();
                    Some(vec![false; places])
                },
                ..PLAIN
            },
        ),
        f1(
            "a whole fill keeps what had arrived",
            Rules {
                fill: |rules, area, downloaded, chain, view| {
                    let mut filled = map::fill(rules, area, downloaded, chain, view)?;
                    let Ok(old) = map::read(rules, area) else {
                        return Ok(filled);
                    };
                    if old.downloaded == downloaded {
                        for (cell, old) in filled.cells.iter_mut().zip(old.cells) {
                            if cell.as_ref().map(Vec::len) == old.as_ref().map(Vec::len) {
                                *cell = old;
                            }
                        }
                    }
                    Ok(filled)
                },
                ..PLAIN
            },
        ),
        f1(
            "9 only up to the first absent header",
            Rules {
                view_shows: |view, chain, heights| {
                    for height in heights.take_while(|height| *height <= u64::from(chain)) {
                        match inputs::row(view, height as u32) {
                            None => return false,
                            Some(Row::Absent) => return true,
                            Some(_) => {}
                        }
                    }
                    true
                },
                ..PLAIN
            },
        ),
        f1(
            "9 only up to the first height that is not complete",
            Rules {
                view_shows: |view, chain, heights| {
                    for height in heights.take_while(|height| *height <= u64::from(chain)) {
                        match inputs::row(view, height as u32) {
                            None => return false,
                            Some(row) if !sync::complete(&row) => return true,
                            Some(_) => {}
                        }
                    }
                    true
                },
                ..PLAIN
            },
        ),
        f1(
            "9 for a height above the chain height",
            Rules {
                view_shows: |view, _, heights| {
                    let last = u64::from(u32::MAX);
                    let mut read = heights.take_while(|height| *height <= last);
                    read.all(|height| inputs::row(view, height as u32).is_some())
                },
                ..PLAIN
            },
        ),
        f1(
            "a height that the view lacks is taken for absent",
            Rules {
                view_shows: |_, _, _| true,
                ..PLAIN
            },
        ),
        f1(
            "9 for a chain height below the downloaded height",
            Rules {
                fill: |rules, area, downloaded, chain, view| {
                    let map = map::fill(rules, area, downloaded, chain, view)?;
                    if chain < downloaded {
                        return Err(Refusal(9));
                    }
                    Ok(map)
                },
                ..PLAIN
            },
        ),
    ]
}
