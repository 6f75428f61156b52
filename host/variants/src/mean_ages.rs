//! Faults in the mean age (F-7): a sum that is not that of all ages, figures that do not say it, refusals.

use crate::{variant, Variant, MEAN_AGE};
use keeper_reference::{image, mean_age, Rules, PLAIN};
use keeper_values::{numbers::types, MeanAge, State};

pub fn variants() -> Vec<Variant> {
    [sums(), figures(), refusals()].concat()
}

fn sum(fault: &'static str, sum_of_ages: fn(&State, u64) -> u128) -> Variant {
    let rules = Rules {
        sum_of_ages,
        ..PLAIN
    };
    variant(MEAN_AGE, fault, rules)
}

fn divided(fault: &'static str, divided: fn(u128, u32) -> (u64, u64)) -> Variant {
    let rules = Rules { divided, ..PLAIN };
    variant(MEAN_AGE, fault, rules)
}

fn answer(fault: &'static str, mean_age: fn(&Rules, &[u8], u64) -> MeanAge) -> Variant {
    let rules = Rules { mean_age, ..PLAIN };
    variant(MEAN_AGE, fault, rules)
}

fn sums() -> Vec<Variant> {
    vec![
        sum("the sum wraps at 64 bits", |state, clock| {
            u128::from(mean_age::sum_of_ages(state, clock) as u64)
        }),
        sum("the sum stops at 2^64 - 1", |state, clock| {
            mean_age::sum_of_ages(state, clock).min(u128::from(u64::MAX))
        }),
        sum("ages are to the last clock", |state, _| {
            mean_age::sum_of_ages(state, state.last_clock)
        }),
        sum("transactions have no age", |state, clock| {
            let mut state = state.clone();
            state
                .pending
                .retain(|_, request| request.type_id != types::TRANSACTION);
            mean_age::sum_of_ages(&state, clock)
        }),
        sum("ages are whole seconds", |state, clock| {
            let stamps = state.pending.values().map(|request| request.stamp);
            let seconds = stamps.map(|stamp| u128::from((clock - stamp) / 1_000));
            seconds.sum::<u128>() * 1_000
        }),
    ]
}

fn figures() -> Vec<Variant> {
    vec![
        divided("the quotient is rounded", |sum, count| {
            let (quotient, remainder) = mean_age::divided(sum, count);
            match 2 * remainder > u64::from(count) {
                true => (quotient + 1, remainder),
                false => (quotient, remainder),
            }
        }),
        divided("the remainder is left out", |sum, count| {
            (mean_age::divided(sum, count).0, 0)
        }),
        divided(
            "the remainder is that of the low 64 bits",
            |sum, count| match count {
                0 => (0, 0),
                _ => {
                    let (quotient, _) = mean_age::divided(sum, count);
                    (quotient, sum as u64 % u64::from(count))
                }
            },
        ),
        divided("with nothing pending it is divided by one", |sum, count| {
            mean_age::divided(sum + u128::from(count == 0), count.max(1))
        }),
        answer(
            "the count has the evicted ids too",
            |rules, state, clock| {
                let mut mean = mean_age::mean_age(rules, state, clock);
                if let (0, Some(state)) = (mean.number, image::read(rules, state)) {
                    mean.count += state.evicted.len() as u32;
                }
                mean
            },
        ),
    ]
}

fn refusals() -> Vec<Variant> {
    vec![
        answer("4 is not given for a mean age", |rules, state, clock| {
            let last = image::read(rules, state).map_or(0, |state| state.last_clock);
            mean_age::mean_age(rules, state, clock.max(last))
        }),
        answer(
            "4 is given at the last clock, for a mean age",
            |rules, state, clock| {
                let later = Rules {
                    clock_fits: |state, clock| clock > state.last_clock,
                    ..*rules
                };
                mean_age::mean_age(&later, state, clock)
            },
        ),
        answer("a refused mean age has the count", |rules, state, clock| {
            let mut mean = mean_age::mean_age(rules, state, clock);
            if mean.number != 0 {
                mean.count = image::read(rules, state).map_or(0, |s| s.pending.len() as u32);
            }
            mean
        }),
    ]
}
