//! Arrivals and prunings.

use super::f1;
use crate::Variant;
use keeper_reference::{map, Rules, PLAIN};

pub fn variants() -> Vec<Variant> {
    vec![
        f1(
            "a second arrival clears the section",
            Rules {
                set_place: |cell, place, stored| {
                    let held = cell.iter().flatten().nth(place.into()) == Some(&true);
                    map::set_place(cell, place, stored && !held);
                },
                ..PLAIN
            },
        ),
        f1(
            "a complete height can't be pruned",
            Rules {
                set_place: |cell, place, stored| {
                    if stored || !map::cell_complete(cell) {
                        map::set_place(cell, place, stored);
                    }
                },
                ..PLAIN
            },
        ),
        f1(
            "pruning takes all sections of a height",
            Rules {
                set_place: |cell, place, stored| match cell {
                    Some(places) if !stored => places.fill(false),
                    _ => map::set_place(cell, place, stored),
                },
                ..PLAIN
            },
        ),
        f1(
            "places are counted from the last",
            Rules {
                set_place: |cell, place, stored| {
                    let places = cell.as_ref().map_or(0, Vec::len) as u8;
                    map::set_place(cell, places - 1 - place, stored);
                },
                ..PLAIN
            },
        ),
        f1(
            "a place up to 2 is let through at every height that is present",
            Rules {
                place_fits: |cell, place| cell.is_some() && place < 3,
                ..PLAIN
            },
        ),
        f1(
            "a place above 2 is let through",
            Rules {
                place_fits: |cell, place| place > 2 || map::place_fits(cell, place),
                ..PLAIN
            },
        ),
        f1(
            "an arrival at an absent header is let through",
            Rules {
                place_fits: |cell, place| cell.is_none() || map::place_fits(cell, place),
                ..PLAIN
            },
        ),
        f1(
            "the last height of the window is outside",
            Rules {
                in_window: |map, height| {
                    map::in_window(map, height) && height - map.downloaded < 192
                },
                ..PLAIN
            },
        ),
        f1(
            "the first height of the window is outside",
            Rules {
                in_window: |map, height| map::in_window(map, height) && height - map.downloaded > 1,
                ..PLAIN
            },
        ),
        f1(
            "a height outside the window is finished without a change",
            Rules {
                change: |rules, area, height, place, stored| {
                    let map = map::read(rules, area)?;
                    if map::in_window(&map, height) {
                        map::change(rules, area, height, place, stored)
                    } else {
                        Ok(map)
                    }
                },
                ..PLAIN
            },
        ),
        f1(
            "the window's sum wraps",
            Rules {
                in_window: |map, height| {
                    map.downloaded < height && height <= map.downloaded.wrapping_add(192)
                },
                ..PLAIN
            },
        ),
    ]
}
