//! Every decision of the reference as a field. [`PLAIN`] is document 01 with F-1 to F-8; a variant is
//! `Rules { one: .., ..PLAIN }`.

use crate::delivery::{Check, Retry};
use crate::entries::Before;
use crate::map::{Cell, Map, Mapped};
use crate::steps::Outcome;
use crate::sync::Stored;
use crate::{commands, delivery, entries, forecast, image, inputs, map, mean_age, steps, sync};
use crate::{Refusal, Run};
use keeper_values::{Arguments, Forecast, Id, MeanAge, Mode, Row, Settings, State, TypeId};
use std::collections::{BTreeMap, BTreeSet};
use std::ops::RangeInclusive;

macro_rules! rules {
    ($($module:ident { $($(#[$note:meta])* $rule:ident : $type:ty $(= $name:ident)?,)* })*) => {
        /// The decisions, in the order of the files that hold them.
        #[derive(Clone, Copy)]
        pub struct Rules {
            $($($(#[$note])* pub $rule: $type,)*)*
        }

        /// The documents' own rules.
        pub const PLAIN: Rules = Rules {
            $($($rule: rules!(@value $module $rule $($name)?),)*)*
        };
    };
    (@value $module:ident $rule:ident) => { $module::$rule };
    (@value $module:ident $rule:ident $name:ident) => { $module::$name };
}

type AreaTest = fn(&[u8]) -> bool;
type ListTest = fn(&[u8]) -> bool;
type Step = fn(&mut Run) -> Outcome;
type Orphans = BTreeMap<TypeId, Vec<Id>>;
type Heights = RangeInclusive<u64>;

rules! {
    image {
        mark_fits: AreaTest,
        version_fits: AreaTest,
        flags_fit: AreaTest,
        counts_fit: AreaTest,
        clocks_fit: AreaTest,
        stalled_once: AreaTest,
        ids_rise: AreaTest,
        stamps_fit: AreaTest,
        checks_fit: AreaTest,
        high_bytes_fit: AreaTest,
        unused_zero: AreaTest,
        rewritten: fn(&[u8], &State) -> Vec<u8>,
    }
    inputs {
        ids_fit: ListTest,
        needed_fits: ListTest,
        continuation_fits: ListTest,
        stored_fits: ListTest,
        peers_fit: ListTest,
        view_fits: ListTest,
    }
    entries {
        state_length_fits: fn(usize) -> bool,
        commands_length_fits: fn(usize) -> bool,
        opened: fn(Settings, u64, u32) -> State,
        areas: fn(&Rules, &[u8], &[u8]) -> Result<State, Refusal>,
        clock_fits: fn(&State, u64) -> bool,
        flags_fit_call: fn(&Arguments) -> bool = flags_fit,
        failure_fits: fn(&State, u8) -> bool,
        arguments_fit: fn(&Rules, &State, &Arguments) -> Result<(), Refusal>,
        result_fits: fn(&Before, &State) -> Result<(), Refusal>,
        pairs: fn(&State, u8) -> BTreeSet<(TypeId, Id)>,
    }
    commands {
        runs: fn(&[Id]) -> Vec<&[Id]>,
        requests: fn(&mut Run, u64, TypeId, &[Id]),
    }
    forecast {
        count_commands: fn(&[u8]) -> u32,
        forecast: fn(&Rules, &[u8], &Arguments) -> Forecast,
    }
    mean_age {
        sum_of_ages: fn(&State, u64) -> u128,
        divided: fn(u128, u32) -> (u64, u64),
        mean_age: fn(&Rules, &[u8], u64) -> MeanAge,
    }
    delivery {
        expired: fn(&Settings, u64, u64) -> bool,
        forgotten_when_undelivered: fn(TypeId) -> bool,
        given_up: fn(&Settings, u32) -> bool,
        retried_stamp: fn(&Settings, u64, u64) -> u64,
        check_timeouts: fn(&mut Run) -> Check,
        mark_requested: fn(&mut Run, &[Id], u64, TypeId),
        mark_retried: fn(&mut Run, &[Id], u64),
        mark_received: fn(&mut Run, &[Id]),
        schedule_rerequest: fn(&mut Run, &[Id]),
        purge_peer: fn(&mut Run, u64) -> Orphans,
        purge_all: fn(&mut Run),
    }
    sync {
        select_peer: fn(&mut State, &[u64]) -> Option<u64>,
        throttled: fn(&State, u64) -> bool,
        send_sync_info: fn(&mut Run, u64) -> bool,
        needed: fn(&Run, TypeId, &[Id], Stored) -> Vec<Id>,
        request_announced: fn(&mut Run, u64, TypeId, &[Id], Stored),
        window_end: fn(u32, u32) -> u32,
        window: fn(&Run) -> Result<Orphans, Refusal>,
        request_next_sections: fn(&mut Run) -> Result<(), Refusal>,
        complete: fn(&Row) -> bool,
        advance_downloaded_height: fn(&mut Run) -> Result<(), Refusal>,
        retry_target: fn(&[u64], &[u64], u64) -> u64,
        retry_batches: fn(&Run, &[Retry]) -> Vec<(u64, TypeId, Vec<Id>)>,
        send_retries: fn(&mut Run, &[Retry]),
        send_fresh: fn(&mut Run, &[Id]),
        handle_delivery_check: fn(&mut Run),
    }
    steps {
        kind_fits: fn(Mode, u8) -> bool,
        enter_syncing: fn(&mut Run, u64),
        reach_synced: Step,
        switch_peer: Step,
        start: Step,
        pick: Step,
        needed_modifier: Step,
        reorg: Step,
        announced: Step,
        empty_headers: Step,
        judge_tip: fn(bool, u32, u32) -> u32,
        announces: fn(Option<u32>, u32) -> bool,
        sync_info: Step,
        lost_peer: Step,
        received: Step,
        evicted: Step,
        progress: Step,
        check: Step,
        stalled: fn(&Run) -> bool,
        join_stalled: fn(&mut Run),
        scheduled_tick: Step,
        tick_syncing: Step,
        tick_synced: Step,
        section_tick: Step,
        send_failure: Step,
        end_of_stream: Step,
    }
    map {
        map_length_fits: fn(usize) -> bool = length_fits,
        map_mark_fits: AreaTest = mark_fits,
        map_version_fits: AreaTest = version_fits,
        map_unused_zero: AreaTest = unused_zero,
        heights_fit: AreaTest,
        absent_above: AreaTest,
        marks_fit: fn(&Rules, &[u8]) -> bool,
        read_map: fn(&Rules, &[u8]) -> Mapped = read,
        cell_complete: fn(&Cell) -> bool,
        cell: fn(&[u8], u32, u64) -> Cell,
        view_shows: fn(&[u8], u32, Heights) -> bool,
        filled: fn(&Rules, &[u8], u32, Heights) -> Result<Vec<Cell>, Refusal>,
        fill: fn(&Rules, &[u8], u32, u32, &[u8]) -> Mapped,
        in_window: fn(&Map, u32) -> bool,
        place_fits: fn(&Cell, u8) -> bool,
        set_place: fn(&mut Cell, u8, bool),
        change: fn(&Rules, &[u8], u32, u8, bool) -> Mapped,
        slide_fits: fn(&Map, u32) -> bool,
        staying: fn(&Map, u32) -> Vec<Cell>,
        slide: fn(&Rules, &[u8], u32, &[u8]) -> Mapped,
        run_of_complete: fn(&Rules, &Map) -> u32,
    }
}
