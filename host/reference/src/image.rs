//! The state area (docs/LAYOUT.md, "State area, version 2"): the tests of 2, reading and writing. An area of version 1 is read
//! as well, and version 2 written.

use crate::Rules;
use keeper_values::numbers::widths::{ID, PEER, RECORD, TYPE};
use keeper_values::numbers::{limits, types};
use keeper_values::{Id, Mode, Request, Settings, State, TypeId, STATE_BYTES};

const MARK: &[u8] = b"EDT";
const VERSION: u16 = 2;
/// Before F-6: a type took the low byte of its field, the high one was unused.
const BYTE_TYPES: u16 = 1;
const STALLED: usize = 512;
const REGION: usize = 2_560;
/// The place of a record's type.
const TYPE_AT: usize = ID + PEER;

pub(crate) fn number(bytes: &[u8], at: usize, width: usize) -> u64 {
    bytes[at..at + width]
        .iter()
        .fold(0, |number, byte| number << 8 | u64::from(*byte))
}

pub(crate) fn number32(bytes: &[u8], at: usize) -> u32 {
    number(bytes, at, 4) as u32
}

pub(crate) fn zero(bytes: &[u8]) -> bool {
    bytes.iter().fold(0, |any, byte| any | byte) == 0
}

fn stalled_count(area: &[u8]) -> usize {
    number(area, 68, 2) as usize
}

fn pending_count(area: &[u8]) -> usize {
    number(area, 70, 2) as usize
}

fn evicted_count(area: &[u8]) -> usize {
    number(area, 72, 2) as usize
}

fn stalled_peers(area: &[u8]) -> impl Iterator<Item = u64> + '_ {
    let bytes = &area[STALLED..STALLED + PEER * stalled_count(area)];
    bytes.chunks_exact(PEER).map(|peer| number(peer, 0, PEER))
}

fn records(area: &[u8]) -> impl Iterator<Item = &[u8]> {
    area[REGION..REGION + RECORD * pending_count(area)].chunks_exact(RECORD)
}

fn id(bytes: &[u8]) -> Id {
    let mut id = [0; ID];
    id.copy_from_slice(&bytes[..ID]);
    id
}

fn request(record: &[u8]) -> Request {
    Request {
        peer: number(record, 32, 8),
        type_id: number(record, TYPE_AT, TYPE) as TypeId,
        stamp: number(record, 42, 8),
        checks: number32(record, 50),
    }
}

fn settings(area: &[u8]) -> Settings {
    Settings {
        timeout: number32(area, 16),
        max_checks: number32(area, 20),
        min_sync_send_interval: number32(area, 24),
        stall_timeout: number32(area, 28),
    }
}

pub fn mark_fits(area: &[u8]) -> bool {
    area.starts_with(MARK)
}

fn version(area: &[u8]) -> u16 {
    number(area, 3, 2) as u16
}

/// "A version 1 image is still accepted [..] any other version is number 2 as before."
pub fn version_fits(area: &[u8]) -> bool {
    matches!(version(area), BYTE_TYPES | VERSION)
}

/// In version 1 the high byte of each type is unused.
pub fn high_bytes_fit(area: &[u8]) -> bool {
    version(area) != BYTE_TYPES || records(area).all(|record| record[TYPE_AT] == 0)
}

pub fn mode_fits(area: &[u8]) -> bool {
    Mode::from_number(area[5]).is_some()
}

/// The marks: 0 or 1, and 0 outside syncing.
pub fn flags_fit(area: &[u8]) -> bool {
    let most = u8::from(area[5] == Mode::Syncing.number());
    area[6] <= most && area[7] <= most
}

pub fn counts_fit(area: &[u8]) -> bool {
    stalled_count(area) <= limits::STALLED
        && pending_count(area) + evicted_count(area) <= limits::TRACKED
}

/// Last progress and last send: at most the last clock.
pub fn clocks_fit(area: &[u8]) -> bool {
    let last_clock = number(area, 8, 8);
    number(area, 32, 8) <= last_clock && number(area, 40, 8) <= last_clock
}

pub fn stalled_once(area: &[u8]) -> bool {
    let mut peers: Vec<u64> = stalled_peers(area).collect();
    peers.sort_unstable();
    peers.windows(2).all(|pair| pair[0] < pair[1])
}

pub fn ids_rise(area: &[u8]) -> bool {
    records(area)
        .zip(records(area).skip(1))
        .all(|(one, next)| one[..ID] < next[..ID])
}

pub fn stamps_fit(area: &[u8]) -> bool {
    let last_clock = number(area, 8, 8);
    records(area).all(|record| request(record).stamp <= last_clock)
}

/// Checks: below M, which is 1 for a transaction and at least 1.
pub fn checks_fit(area: &[u8]) -> bool {
    let most = settings(area).max_checks.max(1);
    records(area).map(request).all(|request| {
        request.checks
            < if request.type_id == types::TRANSACTION {
                1
            } else {
                most
            }
    })
}

/// Zero: the sync peer where there is none, what is kept for later, places beyond a count.
pub fn unused_zero(area: &[u8]) -> bool {
    let sync_peer =
        Mode::from_number(area[5]).is_some_and(Mode::has_sync_peer) || zero(&area[48..56]);
    let region = REGION + RECORD * pending_count(area)..STATE_BYTES - ID * evicted_count(area);
    sync_peer
        && zero(&area[74..STALLED])
        && zero(&area[STALLED + PEER * stalled_count(area)..REGION])
        && area.get(region).is_none_or(zero)
}

/// What the area says, or `None` if it is malformed (2).
pub fn read(rules: &Rules, area: &[u8]) -> Option<State> {
    // The counts come first: the later tests go by them.
    let tests = [
        rules.mark_fits,
        rules.version_fits,
        rules.counts_fit,
        mode_fits,
        rules.flags_fit,
        rules.clocks_fit,
        rules.stalled_once,
        rules.ids_rise,
        rules.stamps_fit,
        rules.checks_fit,
        rules.high_bytes_fit,
        rules.unused_zero,
    ];
    if !tests.iter().all(|test| test(area)) {
        return None;
    }
    let mode = Mode::from_number(area[5])?;
    let evicted = &area[STATE_BYTES - ID * evicted_count(area)..];
    Some(State {
        mode,
        progress_mark: area[6] == 1,
        entry_mark: area[7] == 1,
        last_clock: number(area, 8, 8),
        settings: settings(area),
        last_progress: number(area, 32, 8),
        last_send: number(area, 40, 8),
        sync_peer: mode.has_sync_peer().then(|| number(area, 48, 8)),
        sends_counted: number32(area, 56),
        downloaded: number32(area, 60),
        known_tip: number32(area, 64),
        stalled: stalled_peers(area).collect(),
        pending: records(area)
            .map(|record| (id(record), request(record)))
            .collect(),
        evicted: evicted.chunks_exact(ID).map(id).collect(),
    })
}

/// The area of a state; every byte that no field takes is zero.
pub fn write(state: &State) -> Vec<u8> {
    let mut area = vec![0; STATE_BYTES];
    let mut put = |at: usize, bytes: &[u8]| area[at..at + bytes.len()].copy_from_slice(bytes);
    put(0, MARK);
    put(3, &VERSION.to_be_bytes());
    put(5, &[state.mode.number()]);
    put(6, &[u8::from(state.progress_mark)]);
    put(7, &[u8::from(state.entry_mark)]);
    put(8, &state.last_clock.to_be_bytes());
    put(16, &state.settings.timeout.to_be_bytes());
    put(20, &state.settings.max_checks.to_be_bytes());
    put(24, &state.settings.min_sync_send_interval.to_be_bytes());
    put(28, &state.settings.stall_timeout.to_be_bytes());
    put(32, &state.last_progress.to_be_bytes());
    put(40, &state.last_send.to_be_bytes());
    put(48, &state.sync_peer.unwrap_or(0).to_be_bytes());
    put(56, &state.sends_counted.to_be_bytes());
    put(60, &state.downloaded.to_be_bytes());
    put(64, &state.known_tip.to_be_bytes());
    put(68, &(state.stalled.len() as u16).to_be_bytes());
    put(70, &(state.pending.len() as u16).to_be_bytes());
    put(72, &(state.evicted.len() as u16).to_be_bytes());
    for (index, peer) in state.stalled.iter().enumerate() {
        put(STALLED + PEER * index, &peer.to_be_bytes());
    }
    for (index, (id, request)) in state.pending.iter().enumerate() {
        let at = REGION + RECORD * index;
        put(at, id);
        put(at + 32, &request.peer.to_be_bytes());
        put(at + TYPE_AT, &request.type_id.to_be_bytes());
        put(at + 42, &request.stamp.to_be_bytes());
        put(at + 50, &request.checks.to_be_bytes());
    }
    for (index, id) in state.evicted.iter().rev().enumerate() {
        put(STATE_BYTES - ID * (index + 1), id);
    }
    area
}

/// What opening and every finished step leave: the newest version, whichever the area had before.
pub fn rewritten(_before: &[u8], state: &State) -> Vec<u8> {
    write(state)
}
