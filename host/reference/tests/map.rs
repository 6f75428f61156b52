//! F-1's map on the reference: each field of docs/LAYOUT.md, each refusal, and the run of complete heights.

use keeper_reference::map::{self, Map};
use keeper_reference::{Reference, PLAIN};
use keeper_values::{Keeper, MapCall, Place, Row, View, MAP_BYTES};

/// A row of sections stored or not.
fn row(stored: &[bool]) -> Row {
    let place = |stored: &bool| Place {
        type_id: 102,
        id: [7; 32],
        stored: *stored,
    };
    Row::Present(stored.iter().map(place).collect())
}

fn view(first: u32, rows: Vec<Row>) -> Vec<u8> {
    View { first, rows }.to_bytes()
}

fn call(area: &mut [u8], call: MapCall) -> u32 {
    let before = area.to_vec();
    let number = Reference::plain().map_call(area, &call);
    if number != 0 {
        assert_eq!(area, before, "a refusal leaves the map");
    }
    number
}

fn fill(area: &mut [u8], downloaded: u32, chain: u32, view: Vec<u8>) -> u32 {
    let fill = MapCall::Fill {
        downloaded,
        chain,
        view,
    };
    call(area, fill)
}

fn slide(area: &mut [u8], downloaded: u32, view: Vec<u8>) -> u32 {
    call(area, MapCall::Slide { downloaded, view })
}

fn arrived(area: &mut [u8], height: u32, place: u8) -> u32 {
    call(area, MapCall::Arrived { height, place })
}

fn pruned(area: &mut [u8], height: u32, place: u8) -> u32 {
    call(area, MapCall::Pruned { height, place })
}

fn passable(area: &[u8]) -> (u32, u32) {
    Reference::plain().map_passable(area)
}

/// Filled at downloaded height 10 with all of the chain's rows.
fn filled(chain: u32, rows: Vec<Row>) -> Vec<u8> {
    let mut area = vec![0xff; MAP_BYTES];
    assert_eq!(fill(&mut area, 10, chain, view(11, rows)), 0);
    area
}

#[test]
fn every_byte_of_a_height() {
    let rows = vec![
        Row::Absent,
        row(&[]),
        row(&[false]),
        row(&[true]),
        row(&[true, false]),
        row(&[false, true]),
        row(&[true, true]),
        row(&[false, false, true]),
        row(&[true, true, true]),
    ];
    let area = filled(19, rows);
    assert_eq!(area[64..73], [128, 0, 16, 17, 33, 34, 35, 52, 55]);
    // Complete are the second, the fourth, the seventh and the ninth.
    assert_eq!(area[16..24], [0, 0, 0, 0, 0, 0, 1, 0b0100_1010]);
    assert!(area[73..256].iter().all(|byte| *byte == 128));
    assert!(area[24..64].iter().all(|byte| *byte == 0));
    assert!(area[256..].iter().all(|byte| *byte == 0));
}

#[test]
fn marks_stand_low_bit_first_in_three_words() {
    for (height, byte, bit) in [
        (0, 23, 0),
        (7, 23, 7),
        (8, 22, 0),
        (63, 16, 7),
        (64, 31, 0),
        (127, 24, 7),
        (128, 39, 0),
        (191, 32, 7),
    ] {
        let mut rows = vec![Row::Absent; 192];
        rows[height] = row(&[]);
        let area = filled(202, rows);
        let mut marks = [0; 24];
        marks[byte - 16] = 1 << bit;
        assert_eq!(area[16..40], marks);
    }
}

#[test]
fn the_run_goes_over_the_words() {
    for complete in [0, 1, 63, 64, 65, 127, 128, 129, 191, 192] {
        let mut rows = vec![row(&[true]); complete];
        rows.resize(192, row(&[false]));
        assert_eq!(passable(&filled(202, rows)), (0, complete as u32));
    }
}

#[test]
fn arrivals_and_prunings() {
    let mut area = filled(13, vec![row(&[false, false]), Row::Absent, row(&[])]);
    let before = area.clone();
    assert_eq!(arrived(&mut area, 11, 1), 0);
    assert_eq!((area[64], passable(&area)), (34, (0, 0)));
    assert_eq!(arrived(&mut area, 11, 0), 0);
    assert_eq!((area[64], passable(&area)), (35, (0, 1)));
    let complete = area.clone();
    assert_eq!(arrived(&mut area, 11, 0), 0);
    assert_eq!(area, complete);
    assert_eq!(pruned(&mut area, 11, 0), 0);
    assert_eq!(pruned(&mut area, 11, 1), 0);
    assert_eq!(pruned(&mut area, 11, 1), 0);
    assert_eq!(area, before);
    for (height, place) in [(11, 2), (11, 255), (12, 0), (13, 0), (14, 0), (10, 0)] {
        assert_eq!(arrived(&mut area, height, place), 12, "{height} {place}");
        assert_eq!(pruned(&mut area, height, place), 12, "{height} {place}");
    }
}

#[test]
fn the_window_has_192_heights() {
    let mut area = filled(300, vec![row(&[false]); 192]);
    assert_eq!(arrived(&mut area, 11, 0), 0);
    assert_eq!(arrived(&mut area, 202, 0), 0);
    assert_eq!(arrived(&mut area, 10, 0), 12);
    assert_eq!(arrived(&mut area, 203, 0), 12);
    assert_eq!((area[64], area[255]), (17, 17));
}

#[test]
fn a_slide_keeps_what_stays_and_fills_the_rest() {
    for risen in [0, 1, 63, 64, 65, 191, 192, 193, 1_000_000] {
        let mut area = filled(u32::MAX, vec![row(&[false, true, false]); 192]);
        let kept = 192_u32.saturating_sub(risen);
        let new = risen.min(192);
        let rows = vec![row(&[true]); new as usize];
        let first = 10 + risen + kept + 1;
        assert_eq!(slide(&mut area, 10 + risen, view(first, rows)), 0);
        let map = map::read(&PLAIN, &area).expect("well formed");
        assert_eq!((map.downloaded, map.chain), (10 + risen, u32::MAX));
        let mut cells = vec![Some(vec![false, true, false]); kept as usize];
        cells.resize(192, Some(vec![true]));
        assert_eq!(map.cells, cells, "{risen}");
    }
}

#[test]
fn what_a_fill_needs() {
    let mut area = vec![0; MAP_BYTES];
    let rows = |count| vec![row(&[true]); count];
    // Up to the chain height, also behind an absent header; beyond the window nothing.
    assert_eq!(fill(&mut area, 10, 12, view(11, rows(1))), 9);
    assert_eq!(fill(&mut area, 10, 12, view(12, rows(1))), 9);
    assert_eq!(fill(&mut area, 10, 12, view(11, vec![Row::Absent])), 9);
    assert_eq!(fill(&mut area, 10, 500, view(11, rows(191))), 9);
    assert_eq!(fill(&mut area, 10, 500, view(11, rows(192))), 0);
    assert_eq!(fill(&mut area, 10, 10, view(0, vec![])), 0);
    assert_eq!(fill(&mut area, 10, 0, view(0, vec![])), 0);
    assert_eq!(passable(&area), (0, 0));
    // The whole view is tested.
    let mut long = view(11, rows(3));
    long[4 + 2 * 103] = 4;
    assert_eq!(fill(&mut area, 10, 11, long), 8);
    assert_eq!(fill(&mut area, 10, 11, vec![0; 3]), 8);
}

#[test]
fn the_window_may_end_above_the_last_height() {
    let mut area = vec![0; MAP_BYTES];
    let rows = vec![row(&[true]); 2];
    let (last, before) = (u32::MAX, u32::MAX - 2);
    assert_eq!(fill(&mut area, before, last, view(last - 1, rows)), 0);
    assert_eq!(passable(&area), (0, 2));
    assert_eq!(area[64..67], [17, 17, 128]);
    assert_eq!(pruned(&mut area, last, 0), 0);
    assert_eq!(passable(&area), (0, 1));
    assert_eq!(slide(&mut area, last, view(0, vec![])), 0);
    assert_eq!(passable(&area), (0, 0));
    assert_eq!(arrived(&mut area, last, 0), 12);
    assert_eq!(arrived(&mut area, 0, 0), 12);
}

#[test]
fn twelve_comes_before_eight_and_nine() {
    let mut short = vec![0; MAP_BYTES - 1];
    assert_eq!(fill(&mut short, 10, 11, vec![]), 12);
    assert_eq!(slide(&mut short, 10, vec![]), 12);
    let mut area = filled(300, vec![row(&[]); 192]);
    assert_eq!(slide(&mut area, 9, vec![]), 12);
    assert_eq!(slide(&mut area, 10, vec![]), 8);
    assert_eq!(slide(&mut area, 11, vec![0; 4]), 9);
    assert_eq!(slide(&mut area, 10, vec![0; 4]), 0);
    area[511] = 1;
    assert_eq!(slide(&mut area, 11, vec![]), 12);
    assert_eq!(passable(&area), (12, 0));
    assert_eq!(fill(&mut area, 10, 10, vec![0; 4]), 0);
}

#[test]
fn lengths() {
    for length in [0, 1, MAP_BYTES - 1, MAP_BYTES + 1, 2 * MAP_BYTES] {
        let mut area = vec![0; length];
        assert_eq!(fill(&mut area, 10, 10, vec![0; 4]), 12);
        assert_eq!(arrived(&mut area, 11, 0), 12);
        assert_eq!(pruned(&mut area, 11, 0), 12);
        assert_eq!(slide(&mut area, 10, vec![0; 4]), 12);
        assert_eq!(passable(&area), (12, 0));
    }
    assert_eq!(passable(&[0; MAP_BYTES]), (12, 0));
}

/// A byte of a well-formed map that is set to something else is told, save where the new byte is as well formed.
#[test]
fn each_byte_is_looked_at() {
    let area = filled(
        15,
        vec![
            row(&[false, true]),
            row(&[true]),
            Row::Absent,
            row(&[]),
            row(&[]),
        ],
    );
    let heights = 64..69;
    for (at, old) in area.iter().enumerate() {
        for new in 0..=255 {
            if new == *old {
                continue;
            }
            let mut changed = area.clone();
            changed[at] = new;
            let number = passable(&changed).0;
            let other_height = match at {
                // The downloaded height: as long as no present height comes above the chain height.
                4..=6 => false,
                7 => new <= 10,
                // The chain height likewise.
                8..=10 => true,
                11 => new >= 15,
                // The same number of complete heights at the same places.
                _ if heights.contains(&at) => {
                    let complete = |byte| [0, 17, 35, 55].contains(&byte);
                    let formed = new == 128 || new < 64 && new % 16 < 1 << (new / 16);
                    formed && complete(new) == complete(*old)
                }
                _ => false,
            };
            assert_eq!(number == 0, other_height, "byte {at}: {old} to {new}");
        }
    }
}

#[test]
fn written_as_it_is_read() {
    let map = Map {
        downloaded: 5,
        chain: 196,
        cells: (0..192)
            .map(|index| match index % 5 {
                _ if index > 190 => None,
                4 => None,
                places => Some(
                    (0..places.min(3))
                        .map(|place| index >> place & 1 == 1)
                        .collect(),
                ),
            })
            .collect(),
    };
    let area = map::write(&PLAIN, &map);
    assert_eq!(map::read(&PLAIN, &area), Ok(map));
}
