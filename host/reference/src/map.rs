//! The map of the window (document 02, F-1; docs/LAYOUT.md, "Map of the window"): the tests of 12, 8 and 9, reading and
//! writing, and how many heights can be passed. A call works on a copy, so that a refusal leaves the map.

use crate::image::{number, number32, zero};
use crate::{inputs, Refusal, Rules};
use keeper_values::numbers::limits;
use keeper_values::{MapCall, Row, MAP_BYTES};
use std::ops::RangeInclusive;

const MARK: &[u8] = b"EDM";
const VERSION: u8 = 1;
const MARKS: usize = 16;
const WORD_BITS: usize = 64;
const HEIGHTS: usize = 64;
const HEIGHTS_END: usize = HEIGHTS + WINDOW;
const WINDOW: usize = limits::WINDOW as usize;
const ABSENT: u8 = 128;
const MOST_PLACES: u8 = 3;

/// What a map says of a height: its header is absent, or its sections, place by place, are stored or not.
pub type Cell = Option<Vec<bool>>;

#[derive(Debug, Clone, PartialEq, Eq)]
pub struct Map {
    pub downloaded: u32,
    /// The one that the map was filled with.
    pub chain: u32,
    /// Of the 192 heights after the downloaded height.
    pub cells: Vec<Cell>,
}

/// What a map's call leaves, or its number.
pub type Mapped = Result<Map, Refusal>;

fn refused_unless(fits: bool, number: u32) -> Result<(), Refusal> {
    if fits {
        Ok(())
    } else {
        Err(Refusal(number))
    }
}

/// The heights of the window, sums exact: they may run past 2^32 - 1.
fn window(downloaded: u32) -> RangeInclusive<u64> {
    let first = u64::from(downloaded) + 1;
    first..=u64::from(downloaded) + u64::from(limits::WINDOW)
}

/// "A height whose header is absent is not complete; one without sections is."
pub fn cell_complete(cell: &Cell) -> bool {
    match cell {
        None => false,
        Some(places) => places.iter().all(|stored| *stored),
    }
}

/// A height's byte: 128 for an absent header, else 16 for each section, and 1, 2 and 4 for those stored.
fn cell_byte(cell: &Cell) -> u8 {
    let Some(places) = cell else {
        return ABSENT;
    };
    let stored = places
        .iter()
        .rev()
        .fold(0, |bits, s| bits * 2 + u8::from(*s));
    16 * places.len() as u8 + stored
}

/// What a height's byte says; a place that the height lacks is not looked at.
fn cell_of(byte: u8) -> Cell {
    let places = (byte / 16).min(MOST_PLACES);
    (byte != ABSENT).then(|| (0..places).map(|place| byte >> place & 1 == 1).collect())
}

pub fn cells(area: &[u8]) -> Vec<Cell> {
    let bytes = area[HEIGHTS..HEIGHTS_END].iter();
    bytes.map(|byte| cell_of(*byte)).collect()
}

/// The mark of a height of the window, counted from 0.
pub fn marked(area: &[u8], index: usize) -> bool {
    let word = number(area, MARKS + 8 * (index / WORD_BITS), 8);
    word >> (index % WORD_BITS) & 1 == 1
}

pub fn length_fits(length: usize) -> bool {
    length == MAP_BYTES
}

pub fn mark_fits(area: &[u8]) -> bool {
    area.starts_with(MARK)
}

pub fn version_fits(area: &[u8]) -> bool {
    area[3] == VERSION
}

pub fn unused_zero(area: &[u8]) -> bool {
    zero(&area[12..16]) && zero(&area[40..HEIGHTS]) && zero(&area[HEIGHTS_END..])
}

/// Each height's byte is one that a height has: at most three sections, none stored that the height lacks.
pub fn heights_fit(area: &[u8]) -> bool {
    let mut bytes = area[HEIGHTS..HEIGHTS_END].iter();
    bytes.all(|byte| cell_byte(&cell_of(*byte)) == *byte)
}

/// "a height above the chain height counts as one whose header is absent"
pub fn absent_above(area: &[u8]) -> bool {
    let chain = u64::from(number32(area, 8));
    let mut heights = window(number32(area, 4)).zip(cells(area));
    heights.all(|(height, cell)| height <= chain || cell.is_none())
}

/// The marks are 1 exactly where a height is complete.
pub fn marks_fit(rules: &Rules, area: &[u8]) -> bool {
    let mut cells = cells(area).into_iter().enumerate();
    cells.all(|(index, cell)| marked(area, index) == (rules.cell_complete)(&cell))
}

/// What the area says; 12 for "an area of another length" and "one malformed".
pub fn read(rules: &Rules, area: &[u8]) -> Mapped {
    refused_unless((rules.map_length_fits)(area.len()), 12)?;
    let tests = [
        rules.map_mark_fits,
        rules.map_version_fits,
        rules.map_unused_zero,
        rules.heights_fit,
        rules.absent_above,
    ];
    let formed = tests.iter().all(|test| test(area)) && (rules.marks_fit)(rules, area);
    refused_unless(formed, 12)?;
    Ok(contents(area))
}

/// What the fields of an area say.
pub fn contents(area: &[u8]) -> Map {
    Map {
        downloaded: number32(area, 4),
        chain: number32(area, 8),
        cells: cells(area),
    }
}

/// The area of a map; every byte that no field takes is zero.
pub fn write(rules: &Rules, map: &Map) -> Vec<u8> {
    let mut area = vec![0; MAP_BYTES];
    let mut put = |at: usize, bytes: &[u8]| area[at..at + bytes.len()].copy_from_slice(bytes);
    put(0, MARK);
    put(3, &[VERSION]);
    put(4, &map.downloaded.to_be_bytes());
    put(8, &map.chain.to_be_bytes());
    for (index, cells) in map.cells.chunks(WORD_BITS).enumerate() {
        let complete = cells.iter().map(rules.cell_complete);
        let word = complete
            .rev()
            .fold(0, |word: u64, c| word << 1 | u64::from(c));
        put(MARKS + 8 * index, &word.to_be_bytes());
    }
    let bytes: Vec<u8> = map.cells.iter().map(cell_byte).collect();
    put(HEIGHTS, &bytes);
    area
}

/// What is filled in for a height.
pub fn cell(view: &[u8], chain: u32, height: u64) -> Cell {
    if height > u64::from(chain) {
        return None;
    }
    match inputs::row(view, height as u32)? {
        Row::Absent => None,
        Row::Present(places) => Some(places.iter().map(|place| place.stored).collect()),
    }
}

/// "9 also where the view lacks a height to be filled, up to chain height": every one of them.
pub fn view_shows(view: &[u8], chain: u32, heights: RangeInclusive<u64>) -> bool {
    let mut read = heights.take_while(|height| *height <= u64::from(chain));
    read.all(|height| inputs::row(view, height as u32).is_some())
}

/// The cells of heights filled from a view; 8 and 9.
pub fn filled(
    rules: &Rules,
    view: &[u8],
    chain: u32,
    heights: RangeInclusive<u64>,
) -> Result<Vec<Cell>, Refusal> {
    refused_unless((rules.view_fits)(view), 8)?;
    refused_unless((rules.view_shows)(view, chain, heights.clone()), 9)?;
    Ok(heights
        .map(|height| (rules.cell)(view, chain, height))
        .collect())
}

/// "the whole map is filled afresh from a view", whatever the 512 bytes were.
pub fn fill(rules: &Rules, area: &[u8], downloaded: u32, chain: u32, view: &[u8]) -> Mapped {
    refused_unless((rules.map_length_fits)(area.len()), 12)?;
    Ok(Map {
        downloaded,
        chain,
        cells: (rules.filled)(rules, view, chain, window(downloaded))?,
    })
}

/// "a height outside the window"
pub fn in_window(map: &Map, height: u32) -> bool {
    window(map.downloaded).contains(&u64::from(height))
}

/// "a section place that the height lacks"; where the header is absent it lacks every place.
pub fn place_fits(cell: &Cell, place: u8) -> bool {
    let places = cell.as_ref().map_or(0, Vec::len);
    usize::from(place) < places
}

/// "set when a section (height and place 0 to 2) arrives and cleared when the store prunes it"
pub fn set_place(cell: &mut Cell, place: u8, stored: bool) {
    let flag = cell
        .as_mut()
        .and_then(|places| places.get_mut(usize::from(place)));
    if let Some(flag) = flag {
        *flag = stored;
    }
}

pub fn change(rules: &Rules, area: &[u8], height: u32, place: u8, stored: bool) -> Mapped {
    let mut map = (rules.read_map)(rules, area)?;
    refused_unless((rules.in_window)(&map, height), 12)?;
    let cell = &mut map.cells[(height - map.downloaded) as usize - 1];
    refused_unless((rules.place_fits)(cell, place), 12)?;
    (rules.set_place)(cell, place, stored);
    Ok(map)
}

/// No "slide downwards".
pub fn slide_fits(map: &Map, downloaded: u32) -> bool {
    map.downloaded <= downloaded
}

/// The cells of the heights that stay in the window.
pub fn staying(map: &Map, downloaded: u32) -> Vec<Cell> {
    let risen = (downloaded - map.downloaded) as usize;
    map.cells.iter().skip(risen).cloned().collect()
}

/// "the map slides with it and the new heights are filled from a view", up to the chain height that the map holds.
pub fn slide(rules: &Rules, area: &[u8], downloaded: u32, view: &[u8]) -> Mapped {
    let map = (rules.read_map)(rules, area)?;
    refused_unless((rules.slide_fits)(&map, downloaded), 12)?;
    let mut cells = (rules.staying)(&map, downloaded);
    let heights = window(downloaded);
    let new = heights.start() + cells.len() as u64..=*heights.end();
    cells.extend((rules.filled)(rules, view, map.chain, new)?);
    Ok(Map {
        downloaded,
        cells,
        ..map
    })
}

/// "the run of complete heights at the window's low end"
pub fn run_of_complete(rules: &Rules, map: &Map) -> u32 {
    let complete = |cell: &&Cell| (rules.cell_complete)(cell);
    map.cells.iter().take_while(complete).count() as u32
}

pub fn call(rules: &Rules, area: &mut [u8], call: &MapCall) -> u32 {
    let mapped = match call {
        MapCall::Fill {
            downloaded,
            chain,
            view,
        } => (rules.fill)(rules, area, *downloaded, *chain, view),
        MapCall::Arrived { height, place } => (rules.change)(rules, area, *height, *place, true),
        MapCall::Pruned { height, place } => (rules.change)(rules, area, *height, *place, false),
        MapCall::Slide { downloaded, view } => (rules.slide)(rules, area, *downloaded, view),
    };
    match mapped {
        Ok(map) => {
            area[..MAP_BYTES].copy_from_slice(&write(rules, &map));
            0
        }
        Err(Refusal(number)) => number,
    }
}

/// The number, and how many heights can be passed.
pub fn passable(rules: &Rules, area: &[u8]) -> (u32, u32) {
    match (rules.read_map)(rules, area) {
        Ok(map) => (0, (rules.run_of_complete)(rules, &map)),
        Err(Refusal(number)) => (number, 0),
    }
}
