//! Damaged maps and calls of any numbers and bytes: every one has to be answered, and a refusal has to leave the map.

use super::{mark, KINDS, WINDOW};
use crate::damage;
use crate::noise;
use crate::rng::Rng;
use keeper_values::numbers::widths::ROW;
use keeper_values::{MapCall, MAP_BYTES};

/// A place in the map, as likely in a small field as in a large one.
fn place(rng: &mut Rng) -> usize {
    let (from, to) = rng.pick(&[
        (0, 4),
        (4, 12),
        (12, 16),
        (16, 40),
        (40, 64),
        (64, 256),
        (64, 256),
        (256, MAP_BYTES),
    ]);
    from + rng.index(to - from)
}

fn change(rng: &mut Rng, map: &mut [u8]) {
    let at = place(rng);
    let Some(byte) = map.get_mut(at) else {
        return;
    };
    *byte = match rng.below(4) {
        0 => *byte ^ 1 << rng.below(8),
        1 => rng.pick(&[0, 1, 8, 16, 18, 63, 64, 127, 128, 129, 255]),
        2 => rng.pick(&KINDS),
        _ => rng.draw() as u8,
    };
}

/// A copy of a map: as it is, with a byte or several changed, heights changed and marked so, of another length, or
/// noise.
pub fn damaged(rng: &mut Rng, map: &[u8]) -> Vec<u8> {
    let mut map = map.to_vec();
    match rng.below(10) {
        0 | 1 => {}
        2..=4 => change(rng, &mut map),
        5 => {
            for _ in 0..rng.range(2, 6) {
                change(rng, &mut map);
            }
        }
        6 if map.len() == MAP_BYTES => {
            let index = 64 + rng.index(WINDOW);
            map[index] = rng.pick(&KINDS);
            mark(&mut map);
        }
        7 => map.resize(rng.pick(&[0, 1, 511, 513, 1_024]), 0),
        8 => map = noise::bytes(rng, MAP_BYTES),
        _ => {
            let length = rng.index(2 * MAP_BYTES);
            map = noise::bytes(rng, length);
        }
    }
    map
}

/// A height in or about the window, or any.
fn height(rng: &mut Rng, map: &[u8]) -> u32 {
    let bytes = map.get(4..8).and_then(|bytes| bytes.try_into().ok());
    let downloaded = bytes.map_or(0, u32::from_be_bytes);
    match rng.below(6) {
        0 => noise::number(rng),
        1 => downloaded.wrapping_add(rng.pick(&[0, 1, 191, 192, 193, 194])),
        2 => downloaded.wrapping_sub(rng.below(3) as u32),
        _ => downloaded.wrapping_add(rng.below(200) as u32),
    }
}

fn view(rng: &mut Rng, good: &[u8]) -> Vec<u8> {
    match rng.below(6) {
        0 | 1 => good.to_vec(),
        2 => {
            let mut view = good.to_vec();
            damage::view(rng, &mut view);
            view
        }
        3 => {
            let length = 4 + ROW * rng.index(4);
            noise::bytes(rng, length)
        }
        4 => {
            let length = rng.index(300);
            noise::bytes(rng, length)
        }
        // No rows, or absent headers from any height on.
        _ => {
            let mut view = noise::number(rng).to_be_bytes().to_vec();
            for _ in 0..rng.below(4) {
                view.push(255);
                view.extend([0; ROW - 1]);
            }
            view
        }
    }
}

/// A call of any numbers, most of them about the window of this map; its view has something of a good call's.
pub fn any_call(rng: &mut Rng, map: &[u8], good: &MapCall) -> MapCall {
    let good_view: &[u8] = match good {
        MapCall::Fill { view, .. } | MapCall::Slide { view, .. } => view,
        MapCall::Arrived { .. } | MapCall::Pruned { .. } => &[],
    };
    match rng.below(5) {
        0 => good.clone(),
        1 => MapCall::Fill {
            downloaded: height(rng, map),
            chain: height(rng, map),
            view: view(rng, good_view),
        },
        2 => MapCall::Arrived {
            height: height(rng, map),
            place: rng.pick(&[0, 0, 1, 2, 3, 255]),
        },
        3 => MapCall::Pruned {
            height: height(rng, map),
            place: rng.pick(&[0, 0, 1, 2, 3, 255]),
        },
        _ => MapCall::Slide {
            downloaded: height(rng, map),
            view: view(rng, good_view),
        },
    }
}
