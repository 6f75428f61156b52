//! Slides.

use super::f1;
use crate::Variant;
use keeper_reference::map::{self, Map};
use keeper_reference::{Refusal, Rules, PLAIN};

pub fn variants() -> Vec<Variant> {
    vec![
        f1(
            "a slide takes the heights that stay from its view",
            Rules {
                slide: |rules, area, downloaded, view| {
                    let mut slid = map::slide(rules, area, downloaded, view)?;
                    for (index, cell) in slid.cells.iter_mut().enumerate() {
                        let height = u64::from(downloaded) + 1 + index as u64;
                        if map::view_shows(view, slid.chain, height..=height) {
                            *cell = map::cell(view, slid.chain, height);
                        }
                    }
                    Ok(slid)
                },
                ..PLAIN
            },
        ),
        f1(
            "a slide needs rows for the heights that stay",
            Rules {
                slide: |rules, area, downloaded, view| {
                    let slid = map::slide(rules, area, downloaded, view)?;
                    let first = u64::from(downloaded) + 1;
                    if !map::view_shows(view, slid.chain, first..=first + 191) {
                        return Err(Refusal(9));
                    }
                    Ok(slid)
                },
                ..PLAIN
            },
        ),
        f1(
            "a slide by 192 or more keeps the last height",
            Rules {
                staying: |map, downloaded| {
                    let risen = (downloaded - map.downloaded).min(191) as usize;
                    map.cells[risen..].to_vec()
                },
                ..PLAIN
            },
        ),
        f1(
            "a slide goes by the amount modulo 64",
            Rules {
                staying: |map, downloaded| {
                    let risen = (downloaded - map.downloaded) % 64;
                    map.cells[risen as usize..].to_vec()
                },
                ..PLAIN
            },
        ),
        f1(
            "a slide goes by the amount modulo 256",
            Rules {
                staying: |map, downloaded| {
                    let risen = (downloaded - map.downloaded) % 256;
                    map.cells.iter().skip(risen as usize).cloned().collect()
                },
                ..PLAIN
            },
        ),
        f1(
            "a slide keeps one height too many",
            Rules {
                staying: |map, downloaded| {
                    let risen = (downloaded - map.downloaded).saturating_sub(1);
                    map.cells.iter().skip(risen as usize).cloned().collect()
                },
                ..PLAIN
            },
        ),
        f1(
            "a slide leaves the cells where they are",
            Rules {
                slide: |rules, area, downloaded, view| {
                    let old = map::read(rules, area)?;
                    let slid = map::slide(rules, area, downloaded, view)?;
                    let cells = old.cells;
                    Ok(Map { cells, ..slid })
                },
                ..PLAIN
            },
        ),
        f1(
            "a slide leaves the downloaded height",
            Rules {
                slide: |rules, area, downloaded, view| {
                    let old = map::read(rules, area)?;
                    let slid = map::slide(rules, area, downloaded, view)?;
                    Ok(Map {
                        downloaded: old.downloaded,
                        ..slid
                    })
                },
                ..PLAIN
            },
        ),
        f1(
            "a slide by nothing is refused",
            Rules {
                slide_fits: |map, downloaded| map.downloaded < downloaded,
                ..PLAIN
            },
        ),
        f1(
            "a slide by nothing does not look at its view",
            Rules {
                slide: |rules, area, downloaded, view| {
                    let map = map::read(rules, area)?;
                    if map.downloaded == downloaded {
                        return Ok(map);
                    }
                    map::slide(rules, area, downloaded, view)
                },
                ..PLAIN
            },
        ),
        f1(
            "a slide past the window is refused",
            Rules {
                slide_fits: |map, downloaded| {
                    map::slide_fits(map, downloaded) && downloaded - map.downloaded <= 192
                },
                ..PLAIN
            },
        ),
        f1(
            "a slide downwards is finished without a change",
            Rules {
                slide: |rules, area, downloaded, view| {
                    let map = map::read(rules, area)?;
                    if downloaded < map.downloaded {
                        return Ok(map);
                    }
                    map::slide(rules, area, downloaded, view)
                },
                ..PLAIN
            },
        ),
    ]
}
