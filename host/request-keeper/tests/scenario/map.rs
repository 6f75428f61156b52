//! The map's calls of the scenario, noted in a transcript.

use super::{hash, row, BLOCK};
use request_keeper::{boundary, Refusal, Section, View, WindowMap, MAP_BYTES};
use std::fmt::Write;

const DOWNLOADED: u32 = 0x0102_0304;
/// Two heights above the window.
const CHAIN_HEIGHT: u32 = DOWNLOADED + 194;
/// Of the first row.
const ROW_END: usize = 4 + 106;

/// A map, and what it has answered.
struct Played<'a> {
    map: WindowMap,
    transcript: &'a mut String,
}

/// So many sections; all are stored but that of one place.
fn sections(count: u8, missing: Option<u8>) -> Vec<Section> {
    let section = |place| row(BLOCK, place, Some(place) != missing);
    (0..count).flat_map(section).collect()
}

/// Heights with 0, 1, 2, 3, 0, 1 .. sections. All are stored but the one of the sixth height.
fn window() -> View {
    let sections_at = |height| {
        let index = height - DOWNLOADED - 1;
        Some(sections(index as u8 % 4, (index == 5).then_some(0)))
    };
    View::of_window(DOWNLOADED, CHAIN_HEIGHT, sections_at).expect("three sections at most")
}

impl Played<'_> {
    /// A call that answers this number.
    fn answers(&mut self, number: u32, call: impl FnOnce(&mut WindowMap) -> Result<(), Refusal>) {
        let answered = call(&mut self.map).err().map_or(0, Refusal::number);
        assert_eq!(answered, number);
        let hash = hash(self.map.as_bytes());
        writeln!(self.transcript, "[{answered}]\nmap {hash:016x}").expect("a string takes all");
    }

    fn passable(&mut self, heights: u32) {
        assert_eq!(self.map.passable(), heights);
        writeln!(self.transcript, "[0, {heights}]").expect("a string takes all");
    }

    /// The byte of a height after the downloaded one, the first as 0.
    fn height(&self, index: usize) -> u8 {
        self.map.as_bytes()[64 + index]
    }

    /// Arrived and pruned: height, place.
    fn changes(&mut self) {
        self.answers(0, |map| map.arrived(DOWNLOADED + 6, 0));
        assert_eq!(self.height(5), 0x11);
        self.passable(192);
        self.answers(0, |map| map.pruned(DOWNLOADED + 4, 2));
        assert_eq!(self.height(3), 0x33);
        self.passable(3);
        for (height, place) in [(2, 1), (0, 0), (193, 0)] {
            self.answers(12, |map| map.arrived(DOWNLOADED + height, place));
            self.answers(12, |map| map.pruned(DOWNLOADED + height, place));
        }
    }

    /// Slide: downloaded height, view.
    fn slides(&mut self) {
        let mut view = View::from_height(DOWNLOADED + 193);
        self.answers(9, |map| map.slide(DOWNLOADED + 2, &view));
        view.push_header(&sections(2, Some(0)))
            .expect("two sections");
        view.push_absent().expect("room for a row");
        self.answers(0, |map| map.slide(DOWNLOADED + 2, &view));
        assert_eq!(self.map.downloaded_height(), DOWNLOADED + 2);
        assert_eq!(self.map.chain_height(), CHAIN_HEIGHT);
        assert_eq!(
            [189, 190, 191].map(|index| self.height(index)),
            [0x37, 0x22, 0x80]
        );
        self.passable(1);
        self.answers(12, |map| map.slide(DOWNLOADED + 1, &view));
    }

    /// Lengths, and views that can't be made of rows.
    fn lengths(&mut self) {
        let mut bytes = *self.map.as_bytes();
        let (short, _) = bytes.split_at_mut(MAP_BYTES - 1);
        let view = window();
        let view = view.as_bytes();
        let answer = boundary::map_passable(short);
        let whole = [
            boundary::map_fill(short, DOWNLOADED, CHAIN_HEIGHT, &view[..3]),
            boundary::map_slide(short, DOWNLOADED + 2, &view[..3]),
            boundary::map_fill(&mut bytes, DOWNLOADED, CHAIN_HEIGHT, &view[..ROW_END - 1]),
            boundary::map_slide(&mut bytes, DOWNLOADED + 2, &view[..ROW_END - 1]),
            boundary::map_fill(&mut bytes, DOWNLOADED, CHAIN_HEIGHT, &view[..ROW_END]),
        ];
        assert_eq!(whole, [12, 12, 8, 8, 9]);
        assert_eq!((answer.number, answer.heights), (12, 0));
        assert!(&bytes == self.map.as_bytes());
        writeln!(self.transcript, "[12, 0]\n{whole:?}").expect("a string takes all");
    }
}

/// Fill: downloaded height, chain height, view.
pub fn play(transcript: &mut String) {
    let map = WindowMap::filled(DOWNLOADED, CHAIN_HEIGHT, &window()).expect("all rows");
    let bytes = map.as_bytes();
    assert_eq!(bytes[4..8], DOWNLOADED.to_be_bytes());
    assert_eq!(bytes[8..12], CHAIN_HEIGHT.to_be_bytes());
    assert_eq!(bytes[64..70], [0, 0x11, 0x23, 0x37, 0, 0x10]);
    let mut played = Played { map, transcript };
    played.answers(0, |map| map.fill(DOWNLOADED, CHAIN_HEIGHT, &window()));
    played.passable(5);
    played.changes();
    played.slides();
    played.lengths();
}
