//! What F-7 asks of a mean age, in its own words: whatever a keeper works it out from, its answer has to fit them.

use keeper_reference::{image, PLAIN};
use keeper_values::{Keeper, MeanAge, State, STATE_BYTES};

/// 1 and 2, in this order, or the state.
fn read(area: &[u8]) -> Result<State, u32> {
    if area.len() != STATE_BYTES {
        return Err(1);
    }
    image::read(&PLAIN, area).ok_or(2)
}

/// "the sum of all pending ages .. is q × n + r, with r below n .. With nothing pending all three are 0."
fn fits(mean: MeanAge, state: &State, clock: u64) -> bool {
    let ages = state.pending.values().map(|request| clock - request.stamp);
    let count = state.pending.len() as u64;
    u64::from(mean.count) == count
        && mean.sum() == ages.map(u128::from).sum()
        && (mean.remainder < count || mean == MeanAge::default())
}

/// Holds a keeper to it at a clock, on the area of a state; 4 where the clock is before the last.
pub fn ages_told(
    keeper: &dyn Keeper,
    area: &[u8],
    state: &State,
    clock: u64,
) -> Result<(), String> {
    let mean = keeper.mean_age(area, clock);
    let holds = match clock < state.last_clock {
        true => mean == MeanAge::refused(4),
        false => mean.number == 0 && fits(mean, state, clock),
    };
    told(holds, mean, clock)
}

fn told(holds: bool, mean: MeanAge, clock: u64) -> Result<(), String> {
    match holds {
        true => Ok(()),
        false => Err(format!("mean age {mean:?} at clock {clock}")),
    }
}

/// The same at some clocks, on any area.
pub fn aged(keeper: &dyn Keeper, area: &[u8], clocks: &[u64]) -> Result<(), String> {
    let state = read(area);
    clocks.iter().try_for_each(|&clock| match &state {
        Ok(state) => ages_told(keeper, area, state, clock),
        Err(number) => {
            let mean = keeper.mean_age(area, clock);
            told(mean == MeanAge::refused(*number), mean, clock)
        }
    })
}
