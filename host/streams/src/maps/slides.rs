//! Slides: by nothing, by parts of a word, by words, past the window, by millions, and those that are refused.

use super::{both, malformed_views, no_rows, view, Build, MapScript};
use super::{ABSENT, KINDS, WINDOW};

const AMOUNTS: [u32; 15] = [
    0, 1, 7, 8, 63, 64, 65, 128, 190, 191, 192, 193, 256, 257, 3_000_000,
];

pub fn scripts() -> Vec<MapScript> {
    let mut scripts = amounts();
    scripts.extend(views());
    scripts.extend(chain());
    scripts.extend(far());
    scripts.extend(refused());
    scripts
}

/// Heights of every kind in turn; the first ones are complete.
fn mixed() -> Vec<u8> {
    let complete = [0, 17, 35, 55, 0].into_iter();
    complete
        .chain(KINDS.into_iter().cycle())
        .take(WINDOW)
        .collect()
}

/// How many complete heights stand at the low end.
fn run(heights: &[u8]) -> u32 {
    let complete = |height: &&u8| super::complete(**height);
    heights.iter().take_while(complete).count() as u32
}

fn amounts() -> Vec<MapScript> {
    let mut scripts = Vec::new();
    let mixed = mixed();
    for amount in AMOUNTS {
        let kept = &mixed[WINDOW.min(amount as usize)..];
        let new = WINDOW - kept.len();
        // Nothing is filled: the chain ends with the window.
        let name = format!("slide by {amount} at the chain's end");
        scripts.extend(both(&name, 1_000, 1_192, &mixed, |b| {
            let b = b.slide(1_000 + amount, no_rows(), 0).passable(run(kept));
            b.slide(1_000 + amount, no_rows(), 0).passable(run(kept))
        }));
        // All new heights are filled, complete ones first.
        let filled: Vec<u8> = [0, 17, 128, 33].into_iter().cycle().take(new).collect();
        let after = run(&[kept, &filled].concat());
        let first = 1_001 + amount + kept.len() as u32;
        let name = format!("slide by {amount} along the chain");
        scripts.extend(both(&name, 1_000, u32::MAX, &mixed, |b| {
            b.slide(1_000 + amount, view(first, &filled), 0)
                .passable(after)
        }));
        // Heights that were complete stay so, across the words.
        let mut full = vec![17; WINDOW];
        full[100] = 16;
        let kept = &full[WINDOW.min(amount as usize)..];
        let name = format!("slide by {amount} under a long run");
        scripts.extend(both(&name, 1_000, 1_192, &full, |b| {
            b.arrived(1_101, 0, 0)
                .slide(1_000 + amount, no_rows(), 0)
                .passable(kept.len() as u32)
        }));
    }
    scripts
}

/// What a slide reads of its view: the new heights, and no others.
fn views() -> Vec<MapScript> {
    let mut scripts = Vec::new();
    let heights = [17; WINDOW];
    // Rows of heights that stay say otherwise, and are not taken.
    let mut earlier = vec![ABSENT; 4];
    earlier.extend([0, 16]);
    scripts.extend(both(
        "slide, rows of heights that stay",
        1_000,
        1_194,
        &heights,
        |b| b.slide(1_002, view(1_189, &earlier), 0).passable(191),
    ));
    scripts.extend(both(
        "slide, views that lack a height",
        1_000,
        1_500,
        &heights,
        |b| {
            b.slide(1_002, no_rows(), 9)
                .slide(1_002, view(1_193, &[17]), 9)
                .slide(1_002, view(1_194, &[17]), 9)
                .slide(1_002, view(1_001, &[17; 2]), 9)
                .slide(1_002, view(1_195, &[17]), 9)
                .slide(1_002, view(1_193, &[ABSENT]), 9)
                .passable(192)
                .slide(1_002, view(1_193, &[ABSENT, 17]), 0)
                .passable(190)
                .slide(1_003, view(1_195, &[17, 16, 16]), 0)
                .passable(189)
        },
    ));
    scripts.extend(both(
        "slide past the window, views that lack a height",
        1_000,
        1_600,
        &heights,
        |b| {
            b.slide(1_500, view(1_502, &[17; 99]), 9)
                .slide(1_500, view(1_501, &[17; 99]), 9)
                .slide(1_500, view(1_501, &[17; 100]), 0)
                .passable(100)
        },
    ));
    // A slide by nothing needs no row.
    scripts.extend(both("slide by 0 needs no row", 10, 300, &heights, |b| {
        b.slide(10, no_rows(), 0)
            .slide(10, view(11, &[16]), 0)
            .passable(192)
    }));
    for (name, malformed) in malformed_views(12) {
        let name = format!("a view with {name} in a slide");
        let start = Build::ready(&name, 10, 11, &[17]);
        scripts.push(
            start
                .slide(10, malformed.clone(), 8)
                .slide(11, malformed.clone(), 8)
                .slide(1_000, malformed.clone(), 8)
                .slide(9, malformed, 12)
                .passable(1)
                .done(),
        );
    }
    scripts
}

/// The chain height is the one that the map was filled with.
fn chain() -> Vec<MapScript> {
    let mut scripts = Vec::new();
    let heights = [17, 17, 35, 48, ABSENT, 0];
    scripts.extend(both(
        "slides under a chain height in the window",
        10,
        16,
        &heights,
        |b| {
            b.slide(11, view(203, &[17]), 0)
                .passable(2)
                .slide(13, no_rows(), 0)
                .arrived(14, 0, 0)
                .arrived(14, 1, 0)
                .arrived(14, 2, 0)
                .passable(1)
                .slide(15, no_rows(), 0)
                .passable(1)
                .slide(16, no_rows(), 0)
                .passable(0)
                .slide(17, view(18, &[17; 3]), 0)
                .passable(0)
                .arrived(18, 0, 12)
        },
    ));
    // One new height of the chain, and one above it.
    scripts.extend(both(
        "slides to the chain's end",
        1_000,
        1_194,
        &[0; WINDOW],
        |b| {
            b.slide(1_001, view(1_193, &[0]), 0)
                .passable(192)
                .slide(1_003, view(1_193, &[0]), 9)
                .slide(1_003, view(1_194, &[0, 0]), 0)
                .passable(191)
                .slide(1_194, no_rows(), 0)
                .passable(0)
        },
    ));
    scripts.extend(both(
        "a slide beyond the chain height",
        10,
        12,
        &[17, 17],
        |b| {
            b.slide(500, view(501, &[17; 2]), 0)
                .passable(0)
                .arrived(501, 0, 12)
        },
    ));
    scripts
}

/// Slides by millions, and up to height 2^32 - 1.
fn far() -> Vec<MapScript> {
    let start = |name: &str| Build::ready(name, 0, u32::MAX, &[0; WINDOW]);
    let last = u32::MAX;
    let mut scripts = vec![
        start("slide from 0 to height 2^32 - 1")
            .slide(last, no_rows(), 0)
            .passable(0)
            .slide(last, no_rows(), 0)
            .slide(last - 1, no_rows(), 12)
            .done(),
        start("slide from 0 to before height 2^32 - 1")
            .slide(last - 1, no_rows(), 9)
            .slide(last - 1, view(last - 1, &[17]), 9)
            .slide(last - 1, view(last, &[17]), 0)
            .passable(1)
            .slide(last, no_rows(), 0)
            .passable(0)
            .done(),
        start("slide by 2^31")
            .slide(1 << 31, view((1 << 31) + 1, &[0; WINDOW - 1]), 9)
            .slide(1 << 31, view((1 << 31) + 1, &[0; WINDOW]), 0)
            .passable(192)
            .done(),
        start("slide to a window that ends at height 2^32 - 1")
            .slide(last - 192, view(last - 191, &[17; WINDOW]), 0)
            .passable(192)
            .slide(last - 191, no_rows(), 0)
            .passable(191)
            .slide(last - 64, no_rows(), 0)
            .passable(64)
            .done(),
    ];
    for (below, amount) in [
        (193, 1),
        (193, 2),
        (193, 192),
        (200, 64),
        (250, 64),
        (65, 64),
    ] {
        let downloaded = last - below;
        let present = vec![17; below.min(192) as usize];
        let kept = below.min(192).saturating_sub(amount);
        let new = (below - amount).min(192) - kept;
        let first = downloaded + 193_u32.max(amount + 1).min(below);
        let name = format!("slide by {amount} from height 2^32 - {}", below + 1);
        let rows = view(first, &vec![0; new as usize]);
        scripts.extend(both(&name, downloaded, last, &present, |b| {
            b.slide(downloaded + amount, rows.clone(), 0)
                .passable((below - amount).min(192))
        }));
    }
    scripts
}

/// Slides downwards, and the order of the refusals.
fn refused() -> Vec<MapScript> {
    let mut scripts = Vec::new();
    scripts.extend(both("slides downwards", 10, 500, &[17; WINDOW], |b| {
        b.slide(9, view(10, &[17]), 12)
            .slide(0, no_rows(), 12)
            .slide(9, Vec::new(), 12)
            .slide(10, Vec::new(), 8)
            .slide(11, Vec::new(), 8)
            .slide(11, no_rows(), 9)
            .passable(192)
            .slide(11, view(203, &[17]), 0)
            .slide(10, no_rows(), 12)
            .passable(192)
    }));
    scripts
}
