//! The proved core as a keeper, on the bytes of its boundary, to be held against oracle and reference.

use keeper_values::{Answer, Arguments, Forecast, Keeper, MapCall, MeanAge, Settings};
use request_keeper::boundary;

/// The entries of the static library.
#[derive(Debug, Clone, Copy, Default)]
pub struct Core;

/// A step's arguments as the boundary takes them.
fn call(arguments: &Arguments) -> boundary::Arguments<'_> {
    boundary::Arguments {
        kind: arguments.kind,
        clock: arguments.clock,
        gate: arguments.gate,
        height: arguments.height,
        peer: arguments.peer,
        typeid: arguments.type_id,
        fork: arguments.fork,
        parsed: arguments.parsed,
        hastip: arguments.has_tip,
        tip: arguments.tip,
        ids: &arguments.ids,
        continuation: &arguments.continuation,
        stored: &arguments.stored,
        peers: &arguments.peers,
        view: &arguments.view,
    }
}

impl Keeper for Core {
    fn open(&self, state: &mut [u8], settings: Settings, clock: u64, height: u32) -> u32 {
        boundary::open(
            state,
            settings.timeout,
            settings.max_checks,
            settings.min_sync_send_interval,
            settings.stall_timeout,
            clock,
            height,
        )
    }

    fn step(&self, state: &mut [u8], commands: &mut [u8], arguments: &Arguments) -> Answer {
        let answer = boundary::step(state, commands, &call(arguments));
        Answer {
            number: answer.number,
            outcome: answer.outcome,
            retried: answer.retried,
            fresh: answer.fresh,
            abandoned: answer.abandoned,
            forgotten: answer.forgotten,
            pending: answer.pending,
            evicted: answer.evicted,
            length: answer.length,
        }
    }

    fn forecast(&self, state: &[u8], arguments: &Arguments) -> Forecast {
        let forecast = boundary::forecast(state, &call(arguments));
        Forecast {
            number: forecast.number,
            outcome: forecast.outcome,
            pending: forecast.pending,
            evicted: forecast.evicted,
            commands: forecast.commands,
            length: forecast.length,
        }
    }

    fn mean_age(&self, state: &[u8], clock: u64) -> MeanAge {
        let mean = boundary::mean_age(state, clock);
        MeanAge {
            number: mean.number,
            count: mean.count,
            quotient: mean.quotient,
            remainder: mean.remainder,
        }
    }

    fn question(&self, state: &[u8], commands: &mut [u8], flag: u8) -> (u32, u32) {
        let answer = boundary::question(state, commands, flag);
        (answer.number, answer.length)
    }

    fn map_call(&self, map: &mut [u8], call: &MapCall) -> u32 {
        match call {
            MapCall::Fill {
                downloaded,
                chain,
                view,
            } => boundary::map_fill(map, *downloaded, *chain, view),
            MapCall::Arrived { height, place } => boundary::map_arrived(map, *height, *place),
            MapCall::Pruned { height, place } => boundary::map_pruned(map, *height, *place),
            MapCall::Slide { downloaded, view } => boundary::map_slide(map, *downloaded, view),
        }
    }

    fn map_passable(&self, map: &[u8]) -> (u32, u32) {
        let answer = boundary::map_passable(map);
        (answer.number, answer.heights)
    }
}
