//! Random streams of a map: a world of rows and flags, fills, arrivals, prunings, slides by odd amounts, chain heights
//! that fall into the window, and calls that are refused among them.

use super::{ABSENT, WINDOW};
use crate::damage;
use crate::rng::Rng;
use keeper_values::{MapCall, Place, Row, View};
use std::collections::BTreeSet;

/// What is asked next goes by the map's own bytes, so that most calls fit it.
pub struct RandomMap {
    rng: Rng,
    /// Changes with a reorg, so that heights get other sections.
    branch: u64,
    /// Places whose flag is not the one that they began with.
    turned: BTreeSet<(u32, u8)>,
    /// A header is absent once in so many heights.
    absent: u64,
    /// A section is missing at first once in so many.
    missing: u64,
    /// How far the chain reaches beyond the downloaded height.
    reach: u64,
    pub length: usize,
}

fn number(map: &[u8], at: usize) -> u32 {
    let bytes = map.get(at..at + 4).and_then(|bytes| bytes.try_into().ok());
    bytes.map_or(0, u32::from_be_bytes)
}

impl RandomMap {
    pub fn new(seed: u64) -> Self {
        let mut rng = Rng::new(seed);
        let tight = rng.once_in(2);
        Self {
            branch: rng.draw(),
            turned: BTreeSet::new(),
            absent: rng.pick(&[8, 60, 500, u64::MAX]),
            missing: rng.pick(&[2, 2, 10, 200]),
            reach: if tight { 8 } else { 400 },
            length: rng.range(5, 60) as usize,
            rng,
        }
    }

    /// The row of a height: the same each time, save for what came and went since.
    fn row(&self, height: u32) -> Row {
        let mut fixed = Rng::new(self.branch ^ u64::from(height).wrapping_mul(0x9e37_79b9));
        if fixed.once_in(self.absent) {
            return Row::Absent;
        }
        let count = fixed.below(4) as u8;
        let place = |place| Place {
            type_id: fixed.draw() as u16,
            id: [height as u8; 32],
            stored: !fixed.once_in(self.missing) ^ self.turned.contains(&(height, place)),
        };
        Row::Present((0..count).map(place).collect())
    }

    /// A view of these heights and, now and then, of some more or fewer, or a malformed one.
    fn view(&mut self, first: u64, last: u64) -> Vec<u8> {
        let (mut first, mut last) = (first, last);
        match self.rng.below(24) {
            0 => first = first.saturating_sub(self.rng.below(5)),
            1 => last += self.rng.below(5),
            2 => first += 1,
            3 => last = last.saturating_sub(self.rng.range(1, 3)),
            _ => {}
        }
        let most = u64::from(u32::MAX);
        let rows = first..=last.min(most).min(first + 2 * WINDOW as u64);
        let view = View {
            first: first.min(most) as u32,
            rows: rows.map(|height| self.row(height as u32)).collect(),
        };
        let mut bytes = view.to_bytes();
        if self.rng.once_in(40) {
            damage::view(&mut self.rng, &mut bytes);
        }
        bytes
    }

    /// A downloaded height to begin with.
    fn start(&mut self) -> u32 {
        let small = self.rng.below(400) as u32;
        match self.rng.below(6) {
            0 => small,
            1 => u32::MAX - small,
            2 => self.rng.draw() as u32,
            _ => 1_000 + small,
        }
    }

    fn fill(&mut self, downloaded: u32) -> MapCall {
        let far = match self.rng.below(8) {
            0 => WINDOW as u64 - 1 + self.rng.below(3),
            1 => self.rng.below(WINDOW as u64),
            _ => self.rng.below(self.reach + 1),
        };
        let chain = match self.rng.below(12) {
            0 => u64::from(downloaded).saturating_sub(self.rng.below(3)),
            1 if self.reach > 8 => u64::from(u32::MAX),
            _ => u64::from(downloaded) + far.min(self.reach),
        };
        let chain = chain.min(u64::from(u32::MAX));
        let first = u64::from(downloaded) + 1;
        MapCall::Fill {
            downloaded,
            chain: chain as u32,
            view: self.view(first, chain.min(first + WINDOW as u64 - 1)),
        }
    }

    /// A height and a place: most often ones that the map has.
    fn section(&mut self, map: &[u8]) -> (u32, u8) {
        let (downloaded, chain) = (number(map, 4), number(map, 8));
        let heights = map.get(64..64 + WINDOW).unwrap_or_default();
        let waiting = heights
            .iter()
            .position(|height| *height != ABSENT && !super::complete(*height));
        match (self.rng.below(16), waiting) {
            // The first section that is missing, so that the run grows.
            (0..=7, Some(index)) => {
                let missing = (0..3).find(|place| heights[index] >> place & 1 == 0);
                let height = downloaded.saturating_add(1 + index as u32);
                (height, missing.unwrap_or(0))
            }
            (8, _) => (downloaded.wrapping_add(self.rng.pick(&[0, 192, 193])), 0),
            _ => {
                let present = chain.saturating_sub(downloaded).clamp(1, 192);
                let index = self.rng.below(present.into());
                let height = downloaded.saturating_add(1 + index as u32);
                let byte = heights.get(index as usize).copied().unwrap_or(ABSENT);
                let places = match super::sections(byte) {
                    places @ 1..=3 if !self.rng.once_in(8) => places,
                    _ => 4,
                };
                (height, self.rng.below(places.into()) as u8)
            }
        }
    }

    fn change(&mut self, map: &[u8], stored: bool) -> MapCall {
        let (height, place) = self.section(map);
        let held = match self.row(height) {
            Row::Present(places) => places.get(usize::from(place)).map(|place| place.stored),
            Row::Absent => None,
        };
        // Now and then the world does not follow, so that later views say otherwise.
        if held.is_some_and(|held| held != stored) && !self.rng.once_in(8) {
            let turned = (height, place);
            if !self.turned.remove(&turned) {
                self.turned.insert(turned);
            }
        }
        if stored {
            MapCall::Arrived { height, place }
        } else {
            MapCall::Pruned { height, place }
        }
    }

    fn slide(&mut self, map: &[u8]) -> MapCall {
        let (old, chain) = (number(map, 4), number(map, 8));
        let run = map.get(64..64 + WINDOW).map_or(0, |heights| {
            let complete = |height: &&u8| super::complete(**height);
            heights.iter().take_while(complete).count() as u64
        });
        let amount = match self.rng.below(10) {
            0 => 0,
            1 => self.rng.pick(&[1, 2, 63, 64, 65, 127, 128, 129]),
            2 => self.rng.pick(&[190, 191, 192, 193, 194]),
            3 => self.rng.below(300),
            4 if self.rng.once_in(4) => self.rng.below(1 << 32),
            5 => self.rng.range(1, 9),
            _ => run.min(1 + self.rng.below(40)),
        };
        let to = u64::from(old) + amount;
        let downloaded = if self.rng.once_in(30) {
            u64::from(old).saturating_sub(1 + self.rng.below(3))
        } else {
            to.min(u64::from(u32::MAX))
        };
        let window = WINDOW as u64;
        // Now and then the view also has the heights that stay, as the world has them by now.
        let reached = if self.rng.once_in(4) {
            downloaded
        } else {
            (u64::from(old) + window).max(downloaded)
        };
        let first = reached + 1;
        let last = (downloaded + window).min(chain.into());
        MapCall::Slide {
            downloaded: downloaded as u32,
            view: self.view(first, last),
        }
    }

    /// The next call on this map.
    pub fn next(&mut self, map: &[u8]) -> MapCall {
        if !map.starts_with(b"EDM") {
            let downloaded = self.start();
            return self.fill(downloaded);
        }
        let heights = map.get(64..64 + WINDOW).unwrap_or_default();
        if heights.iter().all(|height| *height == ABSENT) && self.rng.once_in(3) {
            return self.fill(number(map, 4));
        }
        match self.rng.below(40) {
            0 => {
                let downloaded = self.start();
                self.fill(downloaded)
            }
            // A reorg.
            1 => {
                self.branch = self.rng.draw();
                let downloaded = number(map, 4).saturating_sub(self.rng.below(5) as u32);
                self.fill(downloaded)
            }
            // Filled again where it stands, under another chain height.
            2 => self.fill(number(map, 4)),
            3..=24 => self.change(map, true),
            25..=30 => self.change(map, false),
            _ => self.slide(map),
        }
    }
}
