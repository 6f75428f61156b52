//! 12 for the area.

use super::f1;
use crate::Variant;
use keeper_reference::{map, Refusal, Rules, PLAIN};
use keeper_values::MAP_BYTES;

/// The test of the heights' bytes with each taken for another one.
fn heights_fit_as(area: &[u8], taken: fn(u8) -> u8) -> bool {
    let mut area = area.to_vec();
    for byte in &mut area[64..256] {
        *byte = taken(*byte);
    }
    map::heights_fit(&area)
}

pub fn variants() -> Vec<Variant> {
    vec![
        f1(
            "takes a longer map",
            Rules {
                map_length_fits: |length| length >= MAP_BYTES,
                ..PLAIN
            },
        ),
        f1(
            "a map's mark is not looked at",
            Rules {
                map_mark_fits: |_| true,
                ..PLAIN
            },
        ),
        f1(
            "a map's version is not looked at",
            Rules {
                map_version_fits: |_| true,
                ..PLAIN
            },
        ),
        f1(
            "a map's unused bytes before its heights are not looked at",
            Rules {
                map_unused_zero: |area| area[256..].iter().all(|byte| *byte == 0),
                ..PLAIN
            },
        ),
        f1(
            "a map's unused bytes after its heights are not looked at",
            Rules {
                map_unused_zero: |area| {
                    let mut before = area[12..16].iter().chain(&area[40..64]);
                    before.all(|byte| *byte == 0)
                },
                ..PLAIN
            },
        ),
        f1(
            "a stored place that the height lacks is let through",
            Rules {
                heights_fit: |area| {
                    let mut heights = area[64..256].iter();
                    heights.all(|byte| *byte == 128 || byte / 16 <= 3 && byte % 16 < 8)
                },
                ..PLAIN
            },
        ),
        f1(
            "bytes above 128 are let through as heights",
            Rules {
                heights_fit: |area| heights_fit_as(area, |byte| byte.min(128)),
                ..PLAIN
            },
        ),
        f1(
            "heights of four sections or more are let through",
            Rules {
                heights_fit: |area| {
                    let absent = |byte| if (64..128).contains(&byte) { 128 } else { byte };
                    heights_fit_as(area, absent)
                },
                ..PLAIN
            },
        ),
        f1(
            "a mark without a complete height is let through",
            Rules {
                marks_fit: |rules, area| {
                    let cells = map::cells(area).into_iter().enumerate();
                    let mut complete = cells.filter(|(_, cell)| (rules.cell_complete)(cell));
                    complete.all(|(index, _)| map::marked(area, index))
                },
                ..PLAIN
            },
        ),
        f1(
            "a complete height without its mark is let through",
            Rules {
                marks_fit: |rules, area| {
                    let cells = map::cells(area).into_iter().enumerate();
                    let mut marked = cells.filter(|(index, _)| map::marked(area, *index));
                    marked.all(|(_, cell)| (rules.cell_complete)(&cell))
                },
                ..PLAIN
            },
        ),
        f1(
            "marks are looked at in the first word only",
            Rules {
                marks_fit: |rules, area| {
                    let mut cells = map::cells(area).into_iter().enumerate().take(64);
                    cells.all(|(index, cell)| {
                        map::marked(area, index) == (rules.cell_complete)(&cell)
                    })
                },
                ..PLAIN
            },
        ),
        f1(
            "a height above the chain height may be present",
            Rules {
                absent_above: |_| true,
                ..PLAIN
            },
        ),
        f1(
            "any 512 bytes are a map",
            Rules {
                read_map: |rules, area| {
                    if (rules.map_length_fits)(area.len()) {
                        Ok(map::contents(area))
                    } else {
                        Err(Refusal(12))
                    }
                },
                ..PLAIN
            },
        ),
        f1(
            "a whole fill is refused on a malformed map",
            Rules {
                fill: |rules, area, downloaded, chain, view| {
                    map::read(rules, area)?;
                    map::fill(rules, area, downloaded, chain, view)
                },
                ..PLAIN
            },
        ),
    ]
}
