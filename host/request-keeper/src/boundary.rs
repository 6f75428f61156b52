//! The ten entries of the static library on bytes (docs/LAYOUT.md, "Entries"): five of the core, five of the map of the
//! window. The only module with unsafe code, and the only place where the boundary is declared in Rust;
//! `include/request_keeper.h` declares it in C.
//!
//! Nothing is asked of a caller: any number and any bytes are answered. A node has no need of this module, since
//! [`RequestKeeper`](crate::RequestKeeper) and [`WindowMap`](crate::WindowMap) say the same in types; it is for callers
//! that hold bytes of their own, or bad ones.

mod exported {
    use super::{Forecast, MapAnswer, MeanAge, QuestionAnswer, StepAnswer};

    /// Declares entries that are given a step's arguments behind their areas.
    macro_rules! given_a_step {
        ($($entry:ident($($area:ident: $type:ty,)+) -> $answer:ty;)+) => {
            extern "C" {
                $(pub fn $entry(
                    $($area: $type,)+
                    kind: u8,
                    clock: u64,
                    gate: u8,
                    height: u32,
                    peer: u64,
                    typeid: u16,
                    fork: u32,
                    parsed: u8,
                    hastip: u8,
                    tip: u32,
                    ids: *const u8,
                    ids_length: usize,
                    continuation: *const u8,
                    continuation_length: usize,
                    stored: *const u8,
                    stored_length: usize,
                    peers: *const u8,
                    peers_length: usize,
                    view: *const u8,
                    view_length: usize,
                ) -> $answer;)+
            }
        };
    }

    given_a_step! {
        request_keeper_step(
            state: *mut u8,
            state_length: usize,
            commands: *mut u8,
            commands_length: usize,
        ) -> StepAnswer;

        request_keeper_forecast(
            state: *const u8,
            state_length: usize,
        ) -> Forecast;
    }

    extern "C" {
        pub fn request_keeper_open(
            state: *mut u8,
            state_length: usize,
            timeout: u32,
            checks: u32,
            interval: u32,
            stall: u32,
            clock: u64,
            height: u32,
        ) -> u32;

        pub fn request_keeper_mean_age(
            state: *const u8,
            state_length: usize,
            clock: u64,
        ) -> MeanAge;

        pub fn request_keeper_question(
            state: *const u8,
            state_length: usize,
            commands: *mut u8,
            commands_length: usize,
            flag: u8,
        ) -> QuestionAnswer;

        pub fn request_keeper_map_fill(
            map: *mut u8,
            map_length: usize,
            downloaded: u32,
            chain: u32,
            view: *const u8,
            view_length: usize,
        ) -> u32;

        pub fn request_keeper_map_arrived(
            map: *mut u8,
            map_length: usize,
            height: u32,
            place: u8,
        ) -> u32;

        pub fn request_keeper_map_pruned(
            map: *mut u8,
            map_length: usize,
            height: u32,
            place: u8,
        ) -> u32;

        pub fn request_keeper_map_slide(
            map: *mut u8,
            map_length: usize,
            downloaded: u32,
            view: *const u8,
            view_length: usize,
        ) -> u32;

        pub fn request_keeper_map_passable(map: *const u8, map_length: usize) -> MapAnswer;
    }
}

/// A step's arguments other than the areas, in the boundary's order.
#[derive(Debug, Clone, Copy, PartialEq, Eq, Default)]
pub struct Arguments<'a> {
    pub kind: u8,
    pub clock: u64,
    pub gate: u8,
    pub height: u32,
    pub peer: u64,
    pub typeid: u16,
    pub fork: u32,
    pub parsed: u8,
    pub hastip: u8,
    pub tip: u32,
    pub ids: &'a [u8],
    pub continuation: &'a [u8],
    pub stored: &'a [u8],
    pub peers: &'a [u8],
    pub view: &'a [u8],
}

/// The nine numbers of a step.
#[repr(C)]
#[derive(Debug, Clone, Copy, PartialEq, Eq, Default)]
pub struct StepAnswer {
    pub number: u32,
    pub outcome: u32,
    pub retried: u32,
    pub fresh: u32,
    pub abandoned: u32,
    pub forgotten: u32,
    pub pending: u32,
    pub evicted: u32,
    pub length: u32,
}

/// The six numbers of a forecast.
#[repr(C)]
#[derive(Debug, Clone, Copy, PartialEq, Eq, Default)]
pub struct Forecast {
    pub number: u32,
    pub outcome: u32,
    pub pending: u32,
    pub evicted: u32,
    pub commands: u32,
    pub length: u32,
}

/// The four numbers of a mean age.
#[repr(C)]
#[derive(Debug, Clone, Copy, PartialEq, Eq, Default)]
pub struct MeanAge {
    pub number: u32,
    pub count: u32,
    pub quotient: u64,
    pub remainder: u64,
}

/// The two numbers of a question.
#[repr(C)]
#[derive(Debug, Clone, Copy, PartialEq, Eq, Default)]
pub struct QuestionAnswer {
    pub number: u32,
    pub length: u32,
}

/// The two numbers of a map that is asked how many heights can be passed.
#[repr(C)]
#[derive(Debug, Clone, Copy, PartialEq, Eq, Default)]
pub struct MapAnswer {
    pub number: u32,
    pub heights: u32,
}

/// Opens: writes the opened image, or answers 1.
pub fn open(
    state: &mut [u8],
    timeout: u32,
    checks: u32,
    interval: u32,
    stall: u32,
    clock: u64,
    height: u32,
) -> u32 {
    // SAFETY: pointer and length are those of a whole slice, borrowed alone; no number is out of bounds.
    unsafe {
        exported::request_keeper_open(
            state.as_mut_ptr(),
            state.len(),
            timeout,
            checks,
            interval,
            stall,
            clock,
            height,
        )
    }
}

/// Calls an entry with its areas and, behind them, a step's arguments: each list as its pointer and its length.
macro_rules! handed_over {
    ($entry:ident($($area:expr),+), $call:expr) => {
        exported::$entry(
            $($area,)+
            $call.kind,
            $call.clock,
            $call.gate,
            $call.height,
            $call.peer,
            $call.typeid,
            $call.fork,
            $call.parsed,
            $call.hastip,
            $call.tip,
            $call.ids.as_ptr(),
            $call.ids.len(),
            $call.continuation.as_ptr(),
            $call.continuation.len(),
            $call.stored.as_ptr(),
            $call.stored.len(),
            $call.peers.as_ptr(),
            $call.peers.len(),
            $call.view.as_ptr(),
            $call.view.len(),
        )
    };
}

/// Runs a step.
pub fn step(state: &mut [u8], commands: &mut [u8], call: &Arguments<'_>) -> StepAnswer {
    // SAFETY: each pointer stands before the length of its own whole slice. The two that are written are borrowed
    // alone, so that none of the seven overlaps them. No number is out of bounds.
    unsafe {
        handed_over!(
            request_keeper_step(
                state.as_mut_ptr(),
                state.len(),
                commands.as_mut_ptr(),
                commands.len()
            ),
            call
        )
    }
}

/// Asks what a step would answer and write, with a command area of 65,536 bytes.
pub fn forecast(state: &[u8], call: &Arguments<'_>) -> Forecast {
    // SAFETY: each pointer stands before the length of its own whole slice; all six are only read. No number is out of
    // bounds.
    unsafe { handed_over!(request_keeper_forecast(state.as_ptr(), state.len()), call) }
}

/// Asks how old what is pending is at a clock, on the mean.
pub fn mean_age(state: &[u8], clock: u64) -> MeanAge {
    // SAFETY: a whole slice, which is only read; no number is out of bounds.
    unsafe { exported::request_keeper_mean_age(state.as_ptr(), state.len(), clock) }
}

/// Asks which stored pairs a check (flag 0) or a lost peer (flag 1) may read.
pub fn question(state: &[u8], commands: &mut [u8], flag: u8) -> QuestionAnswer {
    // SAFETY: two whole slices; the one that is written is borrowed alone.
    unsafe {
        exported::request_keeper_question(
            state.as_ptr(),
            state.len(),
            commands.as_mut_ptr(),
            commands.len(),
            flag,
        )
    }
}

/// Fills a map whole, on any 512 bytes, for the heights after the downloaded one.
pub fn map_fill(map: &mut [u8], downloaded: u32, chain: u32, view: &[u8]) -> u32 {
    // SAFETY: two whole slices; the one that is written is borrowed alone. No number is out of bounds.
    unsafe {
        exported::request_keeper_map_fill(
            map.as_mut_ptr(),
            map.len(),
            downloaded,
            chain,
            view.as_ptr(),
            view.len(),
        )
    }
}

/// Sets the mark of a section that has come into the store.
pub fn map_arrived(map: &mut [u8], height: u32, place: u8) -> u32 {
    // SAFETY: a whole slice, borrowed alone; no number is out of bounds.
    unsafe { exported::request_keeper_map_arrived(map.as_mut_ptr(), map.len(), height, place) }
}

/// Clears the mark of a section that the store prunes.
pub fn map_pruned(map: &mut [u8], height: u32, place: u8) -> u32 {
    // SAFETY: a whole slice, borrowed alone; no number is out of bounds.
    unsafe { exported::request_keeper_map_pruned(map.as_mut_ptr(), map.len(), height, place) }
}

/// Slides a map up to a downloaded height and fills the new heights.
pub fn map_slide(map: &mut [u8], downloaded: u32, view: &[u8]) -> u32 {
    // SAFETY: two whole slices; the one that is written is borrowed alone. No number is out of bounds.
    unsafe {
        exported::request_keeper_map_slide(
            map.as_mut_ptr(),
            map.len(),
            downloaded,
            view.as_ptr(),
            view.len(),
        )
    }
}

/// Asks a map how many heights can be passed.
pub fn map_passable(map: &[u8]) -> MapAnswer {
    // SAFETY: a whole slice, which is only read.
    unsafe { exported::request_keeper_map_passable(map.as_ptr(), map.len()) }
}
