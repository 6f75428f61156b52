//! Complete heights and the run of them.

use super::f1;
use crate::Variant;
use keeper_reference::map::{self, Cell};
use keeper_reference::{Rules, PLAIN};

pub fn variants() -> Vec<Variant> {
    vec![
        f1(
            "a height without sections is not complete",
            Rules {
                cell_complete: |cell| *cell != Some(vec![]) && map::cell_complete(cell),
                ..PLAIN
            },
        ),
        f1(
            "an absent header is complete",
            Rules {
                cell_complete: |cell| cell.is_none() || map::cell_complete(cell),
                ..PLAIN
            },
        ),
        f1(
            "a height is complete with its first section",
            Rules {
                cell_complete: |cell| match cell {
                    None => false,
                    Some(places) => places.first().is_none_or(|stored| *stored),
                },
                ..PLAIN
            },
        ),
        f1(
            "the run ends with the first word",
            Rules {
                run_of_complete: |rules, map| map::run_of_complete(rules, map).min(64),
                ..PLAIN
            },
        ),
        f1(
            "the run ends with the second word",
            Rules {
                run_of_complete: |rules, map| map::run_of_complete(rules, map).min(128),
                ..PLAIN
            },
        ),
        f1(
            "a window of complete heights counts as none",
            Rules {
                run_of_complete: |rules, map| map::run_of_complete(rules, map) % 192,
                ..PLAIN
            },
        ),
        f1(
            "complete heights are counted behind a gap",
            Rules {
                run_of_complete: |_, map| {
                    let complete = |cell: &&Cell| map::cell_complete(cell);
                    map.cells.iter().filter(complete).count() as u32
                },
                ..PLAIN
            },
        ),
        f1(
            "an absent header is passed in the run",
            Rules {
                run_of_complete: |_, map| {
                    let passed = |cell: &&Cell| cell.is_none() || map::cell_complete(cell);
                    map.cells.iter().take_while(passed).count() as u32
                },
                ..PLAIN
            },
        ),
    ]
}
