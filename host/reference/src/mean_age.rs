//! F-7: the mean age of what is pending, exactly.

use crate::{entries, Refusal, Rules};
use keeper_values::{MeanAge, State};

/// "the sum of all pending ages (clock − stamp) at the given clock"
pub fn sum_of_ages(state: &State, clock: u64) -> u128 {
    let ages = state.pending.values().map(|request| clock - request.stamp);
    ages.map(u128::from).sum()
}

/// "the quotient q and the remainder r .. With nothing pending all three are 0."
pub fn divided(sum: u128, count: u32) -> (u64, u64) {
    if count == 0 {
        return (0, 0);
    }
    let count = u128::from(count);
    ((sum / count) as u64, (sum % count) as u64)
}

fn answer(rules: &Rules, state: &[u8], clock: u64) -> Result<MeanAge, Refusal> {
    let state = entries::readable(rules, state)?;
    if !(rules.clock_fits)(&state, clock) {
        return Err(Refusal(4));
    }
    let count = state.pending.len() as u32;
    let (quotient, remainder) = (rules.divided)((rules.sum_of_ages)(&state, clock), count);
    Ok(MeanAge {
        number: 0,
        count,
        quotient,
        remainder,
    })
}

pub fn mean_age(rules: &Rules, state: &[u8], clock: u64) -> MeanAge {
    answer(rules, state, clock).unwrap_or_else(|refusal| MeanAge::refused(refusal.0))
}
