//! 12, then 8, then 9.

use super::f1;
use crate::Variant;
use keeper_reference::{inputs, map, Refusal, Rules, PLAIN};
use keeper_values::numbers::widths::ROW;

pub fn variants() -> Vec<Variant> {
    vec![
        f1(
            "8 comes before 12 in a slide",
            Rules {
                slide: |rules, area, downloaded, view| {
                    if !inputs::view_fits(view) {
                        return Err(Refusal(8));
                    }
                    map::slide(rules, area, downloaded, view)
                },
                ..PLAIN
            },
        ),
        f1(
            "8 comes before 12 in a fill",
            Rules {
                fill: |rules, area, downloaded, chain, view| {
                    if !inputs::view_fits(view) {
                        return Err(Refusal(8));
                    }
                    map::fill(rules, area, downloaded, chain, view)
                },
                ..PLAIN
            },
        ),
        f1(
            "a slide downwards is found after 8",
            Rules {
                slide: |rules, area, downloaded, view| {
                    let map = map::read(rules, area)?;
                    if !inputs::view_fits(view) {
                        return Err(Refusal(8));
                    }
                    if downloaded < map.downloaded {
                        return Err(Refusal(12));
                    }
                    map::slide(rules, area, downloaded, view)
                },
                ..PLAIN
            },
        ),
        f1(
            "9 comes before 8",
            Rules {
                filled: |rules, view, chain, heights| {
                    if !map::view_shows(view, chain, heights.clone()) {
                        return Err(Refusal(9));
                    }
                    map::filled(rules, view, chain, heights)
                },
                ..PLAIN
            },
        ),
        f1(
            "rows that are not read are not looked at",
            Rules {
                filled: |rules, view, chain, heights| {
                    let last = (*heights.end()).min(chain.into());
                    let first = view
                        .first_chunk()
                        .map_or(0, |first| u32::from_be_bytes(*first));
                    let rows = (last + 1).saturating_sub(first.into()) as usize;
                    let read = view.len().min(4 + ROW * rows);
                    map::filled(rules, &view[..read], chain, heights)
                },
                ..PLAIN
            },
        ),
    ]
}
