//! Damaged copies of good calls: areas of wrong lengths, images with a broken field, lists and views that are too long,
//! too short, out of order. A keeper has to answer each with a number, and nothing may change.

use crate::rng::Rng;
use keeper_values::numbers::widths::{ID, PAIR, PEER, PLACE, RECORD, ROW};
use keeper_values::{Arguments, COMMAND_BYTES, STATE_BYTES};

/// A call on areas of any length, on an image with some bytes overwritten.
#[derive(Debug, Clone, PartialEq, Eq)]
pub struct Damaged {
    pub arguments: Arguments,
    pub state_length: usize,
    pub commands_length: usize,
    /// Bytes written over the image.
    pub poke: Option<(usize, Vec<u8>)>,
}

impl Damaged {
    pub fn none(arguments: &Arguments) -> Self {
        Self {
            arguments: arguments.clone(),
            state_length: STATE_BYTES,
            commands_length: COMMAND_BYTES,
            poke: None,
        }
    }

    /// The state area of this call: the image, poked, cut or extended with zeros.
    pub fn state(&self, image: &[u8]) -> Vec<u8> {
        let mut state = image.to_vec();
        if let Some((offset, bytes)) = &self.poke {
            state[*offset..*offset + bytes.len()].copy_from_slice(bytes);
        }
        state.resize(self.state_length, 0);
        state
    }
}

/// Damages one thing, or now and then two.
pub fn damage(rng: &mut Rng, image: &[u8], good: &Arguments) -> Damaged {
    let mut damaged = Damaged::none(good);
    let times = if rng.once_in(4) { 2 } else { 1 };
    for _ in 0..times {
        fault(rng, image, &mut damaged);
    }
    damaged
}

/// Damages several things, so that the order of refusals shows.
pub fn several(rng: &mut Rng, image: &[u8], good: &Arguments) -> Damaged {
    let mut damaged = Damaged::none(good);
    for _ in 0..rng.range(2, 6) {
        fault(rng, image, &mut damaged);
    }
    damaged
}

fn fault(rng: &mut Rng, image: &[u8], damaged: &mut Damaged) {
    match rng.below(10) {
        0 => lengths(rng, damaged),
        1..=4 => damaged.poke = Some(poke(rng, image)),
        5 => numbers(rng, &mut damaged.arguments),
        6 => ids(rng, &mut damaged.arguments),
        7 => stored(rng, &mut damaged.arguments.stored),
        8 => peers(rng, &mut damaged.arguments.peers),
        _ => view(rng, &mut damaged.arguments.view),
    }
}

fn lengths(rng: &mut Rng, damaged: &mut Damaged) {
    let length = rng.pick(&[0, 1, 65_535, 65_537, 65_536 + RECORD, 131_072]);
    if rng.once_in(2) {
        damaged.state_length = length;
    } else {
        damaged.commands_length = length;
    }
}

fn number(bytes: &[u8], at: usize) -> usize {
    usize::from(u16::from_be_bytes([bytes[at], bytes[at + 1]]))
}

/// A broken or at least changed field of the image.
fn poke(rng: &mut Rng, image: &[u8]) -> (usize, Vec<u8>) {
    let byte = rng.draw() as u8;
    let pending = number(image, 70);
    let evicted = number(image, 72);
    let record = 2_560 + RECORD * rng.index(pending.max(1));
    let free = 2_560 + RECORD * pending;
    let clock = u64::from_be_bytes(std::array::from_fn(|index| image[8 + index]));
    let later = clock.saturating_add(rng.below(2)).to_be_bytes().to_vec();
    match rng.below(28) {
        0 => (rng.index(5), vec![byte]),
        1 => (5, vec![rng.below(7) as u8]),
        2 => (rng.range(6, 7) as usize, vec![rng.below(3) as u8]),
        3 => (8, clock.saturating_sub(rng.below(3)).to_be_bytes().to_vec()),
        4 => (32, later),
        5 => (40, later),
        6 => (48 + rng.index(8), vec![byte]),
        7 => (68, count(rng, number(image, 68), &[256, 257])),
        8 => (70, count(rng, pending, &[1_024 - evicted, 1_025 - evicted])),
        9 => (72, count(rng, evicted, &[1_024 - pending, 1_025 - pending])),
        10 => (74 + rng.index(438), vec![byte]),
        11 => (512 + rng.index(2_048), vec![byte]),
        12 => (free + rng.index(STATE_BYTES - free), vec![byte]),
        13 => (
            STATE_BYTES - 1 - rng.index(ID * evicted + ID + 1),
            vec![byte],
        ),
        // Two records change places, or one stands twice.
        14 if pending > 1 => {
            let at = 2_560 + RECORD * rng.index(pending - 1);
            let mut bytes = image[at..at + 2 * RECORD].to_vec();
            bytes.rotate_left(RECORD);
            (at, bytes)
        }
        15 if pending > 1 => {
            let at = 2_560 + RECORD * rng.index(pending - 1);
            (at + RECORD, image[at..at + RECORD].to_vec())
        }
        16 => (record + rng.index(ID), vec![byte]),
        17 => (record + 40, vec![byte]),
        18 => (record + 41, vec![rng.pick(&[2, 101, byte])]),
        // Another version.
        23..=25 => (
            3,
            vec![rng.once_in(6).into(), rng.pick(&[0, 1, 1, 1, 2, 3, 255])],
        ),
        19 => (record + 42, later),
        20 => {
            let limit = u32::from_be_bytes(std::array::from_fn(|index| image[20 + index]));
            let checks = limit.max(1).saturating_sub(rng.below(2) as u32);
            (record + 50, checks.to_be_bytes().to_vec())
        }
        // A stalled peer twice.
        21 => (520, image[512..520].to_vec()),
        22 => (16 + rng.index(16), vec![byte]),
        _ => (rng.index(STATE_BYTES), vec![byte]),
    }
}

fn count(rng: &mut Rng, now: usize, edges: &[usize]) -> Vec<u8> {
    let count = match rng.below(4) {
        0 => now + 1,
        1 => now.saturating_sub(1),
        2 => rng.pick(edges),
        _ => rng.index(65_536),
    };
    (count as u16).to_be_bytes().to_vec()
}

fn numbers(rng: &mut Rng, call: &mut Arguments) {
    match rng.below(6) {
        0 => call.kind = rng.draw() as u8,
        1 => call.kind = rng.below(18) as u8,
        2 => call.clock = call.clock.saturating_sub(rng.below(1 << 20)),
        3 => call.gate = rng.draw() as u8,
        4 => call.parsed = rng.draw() as u8,
        _ => call.has_tip = rng.draw() as u8,
    }
}

/// A list whose length is off by some bytes or that has one entry too many.
fn length(rng: &mut Rng, list: &mut Vec<u8>, width: usize, most: usize) {
    match rng.below(4) {
        0 => list.push(0),
        1 => {
            list.pop();
        }
        2 => list.resize(width * most, 0),
        _ => list.resize(width * (most + 1), 0),
    }
}

fn ids(rng: &mut Rng, call: &mut Arguments) {
    match rng.below(4) {
        0 | 1 => length(rng, &mut call.ids, ID, 1_024),
        2 => length(rng, &mut call.continuation, ID, 400),
        _ => {
            call.kind = 3;
            call.ids.resize(ID * rng.index(3), 7);
        }
    }
}

fn stored(rng: &mut Rng, list: &mut Vec<u8>) {
    let pairs = list.len() / PAIR;
    match rng.below(4) {
        0 => length(rng, list, PAIR, 1_024),
        1 if pairs > 1 => list.rotate_left(PAIR),
        2 if pairs > 0 => {
            let last = list[PAIR * (pairs - 1)..PAIR * pairs].to_vec();
            list.extend(last);
        }
        // Rising pairs, up to the limit and one above.
        _ => {
            let count = rng.range(1_024, 1_025) as u16;
            list.clear();
            for number in 0..count {
                list.extend([0, 101]);
                list.extend([0; ID - 2]);
                list.extend(number.to_be_bytes());
            }
        }
    }
}

fn peers(rng: &mut Rng, list: &mut Vec<u8>) {
    length(rng, list, PEER, 128);
}

pub(crate) fn view(rng: &mut Rng, view: &mut Vec<u8>) {
    let rows = view.len().saturating_sub(4) / ROW;
    let row = 4 + ROW * rng.index(rows.max(1));
    match rng.below(8) {
        0 => view.truncate(rng.index(5)),
        1 => view.push(0),
        2 => {
            view.pop();
        }
        // The last row at height 2^32 - 1, or one past it.
        3 if view.len() >= 4 => {
            let first = (u32::MAX - rows as u32).saturating_add(rng.below(3) as u32);
            view[..4].copy_from_slice(&first.to_be_bytes());
        }
        _ if rows == 0 => view.extend([9; ROW]),
        4 => view[row] = rng.pick(&[0, 1, 2, 3, 4, 5, 254, 255]),
        5 => view[row + PLACE * rng.range(1, 3) as usize] = rng.below(3) as u8,
        6 => view[row + 1 + rng.index(ROW - 1)] = rng.draw() as u8,
        _ => view[row] = rng.draw() as u8,
    }
}
