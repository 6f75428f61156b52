//! Whole fills, and how many heights can be passed.

use super::{both, malformed_views, no_rows, ready, row, view, Build, MapScript};
use super::{ABSENT, KINDS, WINDOW};
use keeper_values::numbers::widths::ROW;
use keeper_values::{View, MAP_BYTES};

pub fn scripts() -> Vec<MapScript> {
    let mut scripts = kinds();
    scripts.extend(runs());
    scripts.extend(chain_heights());
    scripts.extend(views());
    scripts.extend(last_heights());
    scripts.push(afresh());
    scripts.extend(again());
    scripts
}

/// Heights without sections, of one, two and three, and absent ones.
fn kinds() -> Vec<MapScript> {
    let mut scripts = Vec::new();
    let chain = 10 + KINDS.len() as u32;
    scripts.extend(both("every kind of height", 10, chain, &KINDS, |b| {
        b.passable(1)
    }));
    let complete = [0, 17, 35, 55, 0];
    scripts.extend(both("complete heights", 10, 15, &complete, |b| {
        b.passable(5)
    }));
    let behind = [0, 17, ABSENT, 35, 55];
    scripts.extend(both(
        "an absent header in the middle",
        10,
        15,
        &behind,
        |b| b.passable(2),
    ));
    let first = [ABSENT, 17, 35];
    scripts.extend(both("an absent header first", 10, 13, &first, |b| {
        b.passable(0)
    }));
    for height in KINDS {
        let run = u32::from(super::complete(height)) * 2;
        let name = format!("a height {height} at the low end");
        scripts.extend(both(&name, 10, 12, &[height, 0], |b| b.passable(run)));
    }
    scripts
}

/// So many complete heights at the low end, and one that breaks a full window.
fn runs() -> Vec<MapScript> {
    let mut scripts = Vec::new();
    for run in [0, 1, 2, 62, 63, 64, 65, 127, 128, 129, 190, 191, 192] {
        let mut heights = vec![0; run];
        heights.resize(WINDOW, 16);
        let name = format!("{run} complete heights");
        scripts.extend(both(&name, 1_000, 1_192, &heights, |b| {
            b.passable(run as u32)
        }));
    }
    for index in [0, 1, 31, 63, 64, 65, 127, 128, 191] {
        let mut heights = vec![17; WINDOW];
        heights[index] = 16;
        let height = 1_001 + index as u32;
        let name = format!("the section of height {height} comes last of 192");
        scripts.extend(both(&name, 1_000, u32::MAX, &heights, |b| {
            b.passable(index as u32)
                .arrived(height, 0, 0)
                .passable(192)
                .pruned(height, 0, 0)
                .passable(index as u32)
        }));
    }
    scripts
}

/// Chain heights inside the window, at its end, beyond, and at or below the downloaded height.
fn chain_heights() -> Vec<MapScript> {
    let mut scripts = Vec::new();
    for chain in [0, 1, 9, 10] {
        let name = format!("chain height {chain} at downloaded height 10");
        let stored = view(9, &[17; 5]);
        scripts.push(
            Build::zeros(&name)
                .fill(10, chain, no_rows(), 0)
                .passable(0)
                .fill(10, chain, stored, 0)
                .passable(0)
                .arrived(11, 0, 12)
                .done(),
        );
    }
    // Rows above the chain height are not taken.
    scripts.push(
        Build::zeros("rows above the chain height")
            .fill(10, 12, view(11, &[17; 5]), 0)
            .passable(2)
            .arrived(13, 0, 12)
            .fill(10, 13, view(11, &[0, 0, 0, 0]), 0)
            .passable(3)
            .done(),
    );
    for chain in [1_191, 1_192, 1_193, u32::MAX] {
        let present = WINDOW.min(chain as usize - 1_000);
        let name = format!("chain height {chain} at downloaded height 1000");
        let all = view(1_001, &[0; WINDOW]);
        scripts.push(
            Build::zeros(&name)
                .fill(1_000, chain, view(1_001, &vec![0; present - 1]), 9)
                .fill(1_000, chain, view(1_001, &vec![0; present]), 0)
                .passable(present as u32)
                .fill(1_000, chain, all, 0)
                .passable(present as u32)
                .done(),
        );
    }
    scripts
}

/// Views that lack a height to be filled, that begin earlier and reach further, and malformed ones.
fn views() -> Vec<MapScript> {
    let lacking = Build::zeros("views that lack a height")
        .fill(10, 13, no_rows(), 9)
        .fill(10, 13, view(12, &[17, 17]), 9)
        .fill(10, 13, view(11, &[17, 17]), 9)
        .fill(10, 13, view(8, &[17; 3]), 9)
        .fill(10, 13, view(14, &[17; 3]), 9)
        .fill(10, 13, view(0, &[17; 13]), 9)
        .fill(10, 13, view(11, &[17; 3]), 0)
        .passable(3)
        .fill(10, 14, view(11, &[17; 3]), 9)
        .passable(3)
        .done();
    let absent = Build::zeros("views that end behind an absent header")
        .fill(10, 12, view(11, &[ABSENT]), 9)
        .fill(10, 13, view(11, &[17, ABSENT]), 9)
        .fill(10, 13, view(11, &[17, 16]), 9)
        .fill(10, 13, view(11, &[17, ABSENT, 17]), 0)
        .passable(1)
        .done();
    let wide = Build::zeros("views that begin earlier and reach further")
        .fill(10, 12, view(11, &[17, 33]), 0)
        .passable(1)
        .fill(10, 12, view(9, &[16, 16, 17, 35]), 0)
        .passable(2)
        .fill(10, 12, view(11, &[17, 35, 16]), 0)
        .passable(2)
        .fill(10, 12, view(0, &[ABSENT; 15]), 0)
        .passable(0)
        .done();
    let mut scripts = vec![lacking, absent, wide];
    for (name, malformed) in malformed_views(11) {
        let name = format!("a view with {name} in a fill");
        let start = Build::ready(&name, 10, 11, &[17]);
        scripts.push(
            start
                .fill(10, 11, malformed.clone(), 8)
                .fill(10, 500, malformed.clone(), 8)
                .passable(1)
                .area(vec![0; MAP_BYTES - 1])
                .fill(10, 11, malformed, 12)
                .done(),
        );
    }
    // The row that is not well formed stands behind those that are needed.
    let mut late = view(11, &[17; 3]);
    late[4 + 2 * ROW] = 4;
    scripts.push(
        Build::zeros("a malformed row that is not read")
            .fill(10, 11, late, 8)
            .not_passable()
            .done(),
    );
    scripts
}

/// Windows that run up to height 2^32 - 1 and past it.
fn last_heights() -> Vec<MapScript> {
    let mut scripts = Vec::new();
    for below in [0, 1, 2, 3, 63, 64, 65, 190, 191, 192, 193, 194] {
        let downloaded = u32::MAX - below;
        let there = below.min(192);
        let heights = vec![17; there as usize];
        let name = format!("downloaded height 2^32 - {}", u64::from(below) + 1);
        let calls = |b: Build| {
            let b = b.passable(there).arrived(0, 0, 12).arrived(1, 0, 12);
            let b = b.arrived(downloaded, 0, 12);
            let b = b.pruned(u32::MAX, 0, if (1..=192).contains(&below) { 0 } else { 12 });
            b.slide(u32::MAX, no_rows(), 0).passable(0)
        };
        if below == 0 {
            let rows = View {
                first: u32::MAX,
                rows: vec![row(17)],
            };
            let start = Build::zeros(&name);
            scripts.push(calls(start.fill(downloaded, u32::MAX, rows.to_bytes(), 0)).done());
            let start = Build::ready(&format!("{name}, ready"), downloaded, u32::MAX, &[]);
            scripts.push(calls(start).done());
        } else {
            scripts.extend(both(&name, downloaded, u32::MAX, &heights, calls));
        }
    }
    scripts
}

/// What a fill finds in the area and what had arrived before plays no part.
fn afresh() -> MapScript {
    let mut malformed = ready(10, 11, &[17]);
    malformed[0] = 0;
    Build::zeros("filled afresh")
        .not_passable()
        .fill(10, 11, view(11, &[32]), 0)
        .arrived(11, 0, 0)
        .arrived(11, 1, 0)
        .passable(1)
        .fill(10, 11, view(11, &[32]), 0)
        .passable(0)
        .fill(5, 11, view(6, &[0, 0, 17, 17, 17, 48]), 0)
        .passable(5)
        .area(vec![0xff; MAP_BYTES])
        .not_passable()
        .fill(10, 11, view(11, &[17]), 0)
        .passable(1)
        .area(malformed)
        .not_passable()
        .fill(10, 12, view(11, &[17]), 9)
        .fill(10, 11, view(11, &[16]), 0)
        .passable(0)
        .done()
}

/// The same heights are filled again, with other flags.
fn again() -> Vec<MapScript> {
    let mut scripts = Vec::new();
    for (before, after) in [(35, 32), (33, 34), (16, 17), (55, 51)] {
        let name = format!("a height {before} filled again as {after}");
        let run = |height| u32::from(super::complete(height));
        scripts.extend(both(&name, 10, 11, &[before], |b| {
            b.passable(run(before))
                .fill(10, 11, view(11, &[after]), 0)
                .passable(run(after))
        }));
    }
    scripts
}
