//! Calls of random bytes: any numbers, lists of any length and content, images that nobody wrote.

use crate::damage::Damaged;
use crate::rng::Rng;
use keeper_values::numbers::widths;
use keeper_values::{Arguments, Settings, STATE_BYTES};

pub fn bytes(rng: &mut Rng, length: usize) -> Vec<u8> {
    let words = length.div_ceil(8);
    let mut bytes: Vec<u8> = (0..words).flat_map(|_| rng.draw().to_le_bytes()).collect();
    bytes.truncate(length);
    bytes
}

/// A number of 32 bits, often a small one or one at the top.
pub(crate) fn number(rng: &mut Rng) -> u32 {
    let any = rng.draw() as u32;
    match rng.below(4) {
        0 => any % 300,
        1 => u32::MAX - any % 300,
        _ => any,
    }
}

/// Entries of any content up to one too many, or any number of bytes.
fn list(rng: &mut Rng, width: usize, most: usize) -> Vec<u8> {
    let length = match rng.below(4) {
        0 => rng.index(2_000),
        1 => width * rng.index(most + 2),
        _ => width * rng.index(8),
    };
    bytes(rng, length)
}

/// An image of noise, with its mark and mode as they should be or not.
fn image(rng: &mut Rng, image: &[u8]) -> (usize, Vec<u8>) {
    match rng.below(3) {
        0 => (0, bytes(rng, STATE_BYTES)),
        1 => (8, bytes(rng, STATE_BYTES - 8)),
        // The tables alone: the header's counts stay.
        _ => {
            let from = 512 + rng.index(image.len() - 512);
            let length = rng.index(image.len() - from);
            (from, bytes(rng, length))
        }
    }
}

/// A good call in which some parts, or all of them, are noise.
pub fn noise(rng: &mut Rng, good_image: &[u8], good: &Arguments) -> Damaged {
    let mut damaged = Damaged::none(good);
    if rng.once_in(4) {
        damaged.poke = Some(image(rng, good_image));
    }
    let call = &mut damaged.arguments;
    let clock = call.clock;
    for part in 0..9 {
        if rng.once_in(2) {
            continue;
        }
        match part {
            0 => call.kind = rng.below(18) as u8,
            1 => call.clock = clock.saturating_add(rng.draw() >> rng.below(64)),
            2 => call.height = number(rng),
            3 => (call.peer, call.type_id) = (rng.draw(), rng.draw() as u16),
            4 => (call.fork, call.tip) = (number(rng), number(rng)),
            5 => call.ids = list(rng, widths::ID, 1_024),
            6 => call.continuation = list(rng, widths::ID, 400),
            7 => call.stored = list(rng, widths::PAIR, 1_024),
            _ => call.peers = list(rng, widths::PEER, 128),
        }
    }
    if rng.once_in(8) {
        call.view = list(rng, widths::ROW, 200);
    }
    if rng.once_in(8) {
        [call.gate, call.parsed, call.has_tip] = [(); 3].map(|()| rng.draw() as u8 % 4);
    }
    damaged
}

/// An opening of any numbers on an area of some length.
pub struct AnyOpening {
    pub length: usize,
    pub settings: Settings,
    pub clock: u64,
    pub height: u32,
}

pub fn opening(rng: &mut Rng) -> AnyOpening {
    AnyOpening {
        length: rng.pick(&[STATE_BYTES, STATE_BYTES, 0, 1, 65_535, 65_537, 131_072]),
        settings: Settings {
            timeout: number(rng),
            max_checks: number(rng),
            min_sync_send_interval: number(rng),
            stall_timeout: number(rng),
        },
        clock: rng.draw(),
        height: number(rng),
    }
}
