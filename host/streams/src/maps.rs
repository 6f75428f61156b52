//! Streams of calls on the map of the window (F-1): directed ones at each limit, malformed maps, random ones from a
//! seed, and damaged copies. A height is said by its byte in a map (docs/LAYOUT.md): 128, or 16 × sections + those
//! stored.

mod changes;
mod damage;
mod fills;
mod malformed;
mod random;
mod slides;

pub use damage::{any_call, damaged};
pub use random::RandomMap;

use crate::build::id;
use crate::text::Line;
use keeper_values::numbers::widths::{PLACE, ROW};
use keeper_values::numbers::{limits, types};
use keeper_values::{MapCall, Place, Row, View, MAP_BYTES};

/// What a stream does that is known from the start.
#[derive(Debug, Clone, PartialEq, Eq)]
pub enum MapEvent {
    /// The map is these bytes.
    Area(Vec<u8>),
    /// A call, and its number.
    Call(MapCall, u32),
    /// What can be passed: the number and the heights.
    Passable(u32, u32),
}

/// A stream of calls on a map that is zeros at first.
#[derive(Debug, Clone, PartialEq, Eq)]
pub struct MapScript {
    pub name: String,
    pub events: Vec<MapEvent>,
}

impl MapScript {
    pub fn lines(&self) -> Vec<Line> {
        let line = |event: &MapEvent| match event {
            MapEvent::Area(bytes) => Line::Map(bytes.clone()),
            MapEvent::Call(call, _) => Line::MapCall(call.clone()),
            MapEvent::Passable(..) => Line::Passable,
        };
        let events = self.events.iter().map(line);
        std::iter::once(Line::Stream(self.name.clone()))
            .chain(events)
            .collect()
    }
}

/// All directed streams, those of malformed maps among them.
pub fn scripts() -> Vec<MapScript> {
    let mut scripts = fills::scripts();
    scripts.extend(changes::scripts());
    scripts.extend(slides::scripts());
    scripts.extend(malformed::scripts());
    scripts
}

/// Heights in a window.
const WINDOW: usize = limits::WINDOW as usize;

/// The byte of a height whose header is absent.
const ABSENT: u8 = 128;

/// Every byte that a height may have.
const KINDS: [u8; 16] = [
    0, 16, 17, 32, 33, 34, 35, 48, 49, 50, 51, 52, 53, 54, 55, ABSENT,
];

/// Sections of a height, by its byte.
fn sections(height: u8) -> u8 {
    if height == ABSENT {
        0
    } else {
        height / 16
    }
}

fn complete(height: u8) -> bool {
    matches!(height, 0 | 17 | 35 | 55)
}

/// The row of a height by its byte.
fn row(height: u8) -> Row {
    if height == ABSENT {
        return Row::Absent;
    }
    let types = [
        types::BLOCK_TRANSACTIONS,
        types::AD_PROOFS,
        types::EXTENSION,
    ];
    let place = |place: u8| Place {
        type_id: types[usize::from(place)],
        id: id(u16::from(place)),
        stored: height >> place & 1 == 1,
    };
    Row::Present((0..sections(height)).map(place).collect())
}

/// A view of these heights.
fn view(first: u32, heights: &[u8]) -> Vec<u8> {
    let rows = heights.iter().map(|height| row(*height));
    View {
        first,
        rows: rows.collect(),
    }
    .to_bytes()
}

/// A well-formed map: these heights, and absent ones after them.
fn ready(downloaded: u32, chain: u32, heights: &[u8]) -> Vec<u8> {
    let mut map = b"EDM\x01".to_vec();
    map.extend(downloaded.to_be_bytes());
    map.extend(chain.to_be_bytes());
    map.resize(MAP_BYTES, 0);
    for (index, height) in map[64..64 + WINDOW].iter_mut().enumerate() {
        *height = heights.get(index).copied().unwrap_or(ABSENT);
    }
    mark(&mut map);
    map
}

/// Puts the marks of complete heights as the heights have it.
fn mark(map: &mut [u8]) {
    let (before, heights) = map.split_at_mut(64);
    before[16..40].fill(0);
    for (index, height) in heights[..WINDOW].iter().enumerate() {
        let (word, bit) = (index / 64, index % 64);
        before[16 + 8 * word + 7 - bit / 8] |= u8::from(complete(*height)) << (bit % 8);
    }
}

/// A stream under construction.
struct Build(MapScript);

impl Build {
    /// Zeros, which are no map.
    fn zeros(name: &str) -> Self {
        Self(MapScript {
            name: format!("map: {name}"),
            events: Vec::new(),
        })
    }

    fn ready(name: &str, downloaded: u32, chain: u32, heights: &[u8]) -> Self {
        Self::zeros(name).area(ready(downloaded, chain, heights))
    }

    /// The same map by a whole fill.
    fn filled(name: &str, downloaded: u32, chain: u32, heights: &[u8]) -> Self {
        let name = format!("{name}, filled");
        let view = view(downloaded.saturating_add(1), heights);
        Self::zeros(&name).fill(downloaded, chain, view, 0)
    }

    fn event(mut self, event: MapEvent) -> Self {
        self.0.events.push(event);
        self
    }

    fn area(self, bytes: Vec<u8>) -> Self {
        self.event(MapEvent::Area(bytes))
    }

    fn call(self, call: MapCall, number: u32) -> Self {
        self.event(MapEvent::Call(call, number))
    }

    fn fill(self, downloaded: u32, chain: u32, view: Vec<u8>, number: u32) -> Self {
        let fill = MapCall::Fill {
            downloaded,
            chain,
            view,
        };
        self.call(fill, number)
    }

    fn arrived(self, height: u32, place: u8, number: u32) -> Self {
        self.call(MapCall::Arrived { height, place }, number)
    }

    fn pruned(self, height: u32, place: u8, number: u32) -> Self {
        self.call(MapCall::Pruned { height, place }, number)
    }

    fn slide(self, downloaded: u32, view: Vec<u8>, number: u32) -> Self {
        self.call(MapCall::Slide { downloaded, view }, number)
    }

    fn passable(self, heights: u32) -> Self {
        self.event(MapEvent::Passable(0, heights))
    }

    fn not_passable(self) -> Self {
        self.event(MapEvent::Passable(12, 0))
    }

    fn done(self) -> MapScript {
        self.0
    }
}

/// The same calls on a ready-made map, which is short to write down, and on one that a fill has made.
fn both(
    name: &str,
    downloaded: u32,
    chain: u32,
    heights: &[u8],
    calls: impl Fn(Build) -> Build,
) -> [MapScript; 2] {
    [Build::ready, Build::filled].map(|start| calls(start(name, downloaded, chain, heights)).done())
}

/// A view without rows.
fn no_rows() -> Vec<u8> {
    view(0, &[])
}

/// Views that are malformed, each in one way, with a height or more from `first` on.
fn malformed_views(first: u32) -> Vec<(&'static str, Vec<u8>)> {
    let changed = |at: usize, byte: u8| {
        let mut view = view(first, &[17, 33, ABSENT]);
        view[4 + at] = byte;
        view
    };
    let mut part = view(first, &[17, 17]);
    part.pop();
    vec![
        ("no bytes", Vec::new()),
        ("three bytes", first.to_be_bytes()[..3].to_vec()),
        ("a part of a row", part),
        ("a count of four", changed(0, 4)),
        ("a count of 254", changed(0, 254)),
        ("a stored byte of two", changed(PLACE, 2)),
        (
            "a stored byte of 255 in the second row",
            changed(ROW + 2 * PLACE, 255),
        ),
        ("an unused place that is not zero", changed(PLACE + 1, 1)),
        ("the last byte of a row", changed(ROW - 1, 1)),
        ("an absent header with a place", changed(2 * ROW + 1, 1)),
        ("an absent header with a last byte", changed(3 * ROW - 1, 1)),
        ("a row past height 2^32 - 1", view(u32::MAX, &[17, 17])),
    ]
}

#[cfg(test)]
mod tests {
    use super::*;

    #[test]
    fn complete_heights_have_all_their_sections() {
        for height in KINDS {
            let stored = match row(height) {
                Row::Absent => false,
                Row::Present(places) => places.iter().all(|place| place.stored),
            };
            assert_eq!(complete(height), stored, "{height}");
        }
    }

    #[test]
    fn names_are_there_once() {
        let mut names: Vec<String> = scripts().into_iter().map(|script| script.name).collect();
        let count = names.len();
        names.sort();
        names.dedup();
        assert_eq!(names.len(), count);
        assert!(names.iter().all(|name| name.starts_with("map: ")));
    }
}
