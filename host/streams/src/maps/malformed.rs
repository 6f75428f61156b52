//! Areas that are no map: of another length, or with a field that docs/LAYOUT.md does not allow. Every call but a whole
//! fill is refused as 12, whatever else is wrong with it.

use super::{mark, no_rows, ready, view, Build, MapScript};
use super::{ABSENT, WINDOW};
use keeper_values::MAP_BYTES;

/// Every height of the chain is present, so that a byte of any kind may stand there.
const HEIGHTS: [u8; 6] = [35, 16, 17, 0, 52, ABSENT];

fn good() -> Vec<u8> {
    ready(10, 16, &HEIGHTS)
}

struct Cases(Vec<MapScript>);

impl Cases {
    fn area(&mut self, name: &str, area: Vec<u8>) {
        let whole = area.len() == MAP_BYTES;
        let build = Build::zeros(&format!("malformed, {name}"))
            .area(area)
            .not_passable()
            .arrived(12, 0, 12)
            .pruned(12, 0, 12)
            .slide(10, no_rows(), 12)
            .slide(11, Vec::new(), 12)
            .slide(9, view(10, &[17]), 12);
        let build = if whole {
            build.fill(10, 10, Vec::new(), 8)
        } else {
            build.fill(10, 10, no_rows(), 12)
        };
        self.0.push(build.done());
    }

    fn byte(&mut self, name: &str, at: usize, byte: u8) {
        let mut area = good();
        area[at] = byte;
        self.area(name, area);
    }

    /// A byte of the second height, with the marks as they would be for a complete or another one.
    fn height(&mut self, byte: u8) {
        let mut area = good();
        area[65] = byte;
        mark(&mut area);
        self.area(&format!("a height {byte}"), area.clone());
        area[23] ^= 2;
        self.area(&format!("a height {byte} with the other mark"), area);
    }
}

/// The directed streams.
pub fn scripts() -> Vec<MapScript> {
    let mut cases = Cases(Vec::new());
    lengths(&mut cases);
    fields(&mut cases);
    heights(&mut cases);
    marks(&mut cases);
    above(&mut cases);
    cases.0
}

fn lengths(cases: &mut Cases) {
    for length in [0, 1, 64, 256, 511, 513, 1_024] {
        let mut area = good();
        area.resize(length, 0);
        cases.area(&format!("{length} bytes"), area);
    }
    cases.area("zeros", vec![0; MAP_BYTES]);
    cases.area("all bits", vec![0xff; MAP_BYTES]);
}

fn fields(cases: &mut Cases) {
    cases.byte("first byte of the mark", 0, b'e');
    cases.byte("second byte of the mark", 1, 0);
    cases.byte("third byte of the mark", 2, b'T');
    for version in [0, 2, 255] {
        cases.byte(&format!("version {version}"), 3, version);
    }
    for at in [12, 15, 40, 63, 256, 300, 511] {
        cases.byte(&format!("unused byte {at}"), at, 1);
    }
    cases.byte("unused byte 15 of 128", 15, 128);
    cases.byte("unused byte 511 of 255", 511, 255);
}

/// Sections that a height can't have, and stored places that it lacks.
fn heights(cases: &mut Cases) {
    for byte in [
        1, 2, 4, 8, 15, 18, 20, 24, 31, 36, 39, 40, 47, 56, 63, 64, 65, 79, 80, 112, 127, 129, 144,
        192, 254, 255,
    ] {
        cases.height(byte);
    }
    // The last height of a whole window.
    let mut area = ready(10, 500, &[17; WINDOW]);
    area[255] = 129;
    cases.area("the last height 129", area.clone());
    mark(&mut area);
    cases.area("the last height 129, its mark zero", area);
}

/// Marks that contradict the heights, in each word.
fn marks(cases: &mut Cases) {
    for index in [0, 1, 2, 5, 6, 63, 64, 127, 128, 191] {
        let mut area = good();
        let (word, bit) = (index / 64, index % 64);
        area[16 + 8 * word + 7 - bit / 8] ^= 1 << (bit % 8);
        cases.area(&format!("the mark of height {}", 11 + index), area);
    }
    for index in [63, 64, 127, 128, 191] {
        let mut area = ready(10, 500, &[17; WINDOW]);
        let (word, bit) = (index / 64, index % 64);
        area[16 + 8 * word + 7 - bit / 8] ^= 1 << (bit % 8);
        cases.area(&format!("no mark of height {}", 11 + index), area);
    }
}

/// Heights above the chain height that are not absent.
fn above(cases: &mut Cases) {
    cases.area("a section above the chain height", ready(10, 11, &[17, 16]));
    cases.area(
        "a complete height above the chain height",
        ready(10, 11, &[17, 17]),
    );
    cases.area(
        "no sections above the chain height",
        ready(10, 11, &[17, 0]),
    );
    cases.area(
        "a height at the downloaded chain height",
        ready(10, 10, &[16]),
    );
    cases.area("a height far above the chain height", ready(10, 0, &[16]));
    let mut last = [ABSENT; WINDOW];
    last[191] = 16;
    cases.area(
        "the last height above the chain height",
        ready(10, 201, &last),
    );
    cases.area(
        "a height past 2^32 - 1",
        ready(u32::MAX - 1, u32::MAX, &[17, 16]),
    );
    cases.area(
        "the first height past 2^32 - 1",
        ready(u32::MAX, u32::MAX, &[0]),
    );
}
