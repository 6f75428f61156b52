//! The mean age (F-7) against what a shell does without it, on the same data in the same rounds: the sum of the ages of
//! `RequestKeeper::pending` in 128 bits, divided; and a question of no pairs, which tests the image as every entry does.

use crate::case::{Areas, Prepared};
use crate::data::{call, pending, CLOCK};
use crate::ids::{Ids, RANDOM};
use crate::measure::MARGIN;
use crate::table;
use crate::times::{time, Times, ATTEMPTS, ROUNDS};
use keeper_core::Core;
use keeper_values::numbers::kinds;
use keeper_values::{Keeper, MeanAge};
use request_keeper::RequestKeeper;
use std::hint::black_box;

/// How many are pending.
const COUNTS: [usize; 4] = [0, 1, 100, 1_024];

/// So late that the sum of 1,024 ages has 74 bits.
const LATE: u64 = u64::MAX;

#[derive(Default)]
struct Measured {
    mean: Times,
    question: Times,
    sum: Times,
}

impl Measured {
    /// The image's test and the sum in Rust.
    fn limit(&self) -> Option<f64> {
        Some(self.question.median()? + self.sum.median()?)
    }
}

/// The same in Rust, from the typed crate's requests.
fn in_rust(keeper: &RequestKeeper, clock: u64) -> MeanAge {
    let ages = keeper
        .pending()
        .map(|request| u128::from(clock - request.stamp));
    let (count, sum) = ages.fold((0_u32, 0), |(count, sum), age| (count + 1, sum + age));
    let by = u128::from(count.max(1));
    MeanAge {
        number: 0,
        count,
        quotient: (sum / by) as u64,
        remainder: (sum % by) as u64,
    }
}

/// Each side once, with answers that are checked.
fn round(count: usize, number: usize, areas: &mut Areas, measured: &mut Measured) {
    let name = format!("mean age of {count}");
    let ids = Ids::new(RANDOM, &name, number).draw(count);
    let prepared = Prepared::new(pending(&ids, CLOCK - 7), call(kinds::CHECK));
    prepared.restore(areas);
    let keeper = RequestKeeper::from_bytes(areas.state.bytes()).expect("well formed");
    let (state, commands) = (areas.state.bytes(), areas.commands.bytes_mut());
    let mut mean = MeanAge::default();
    let took = time(|| mean = Core.mean_age(black_box(state), black_box(LATE)));
    measured.mean.add(took, 1);
    let mut asked = (0, 0);
    let took = time(|| asked = Core.question(black_box(state), commands, 0));
    measured.question.add(took, 1);
    let mut sum = MeanAge::default();
    let took = time(|| sum = in_rust(black_box(&keeper), black_box(LATE)));
    measured.sum.add(took, 1);
    assert_eq!((mean, asked), (sum, (0, 0)), "{name}");
    assert_eq!(mean.count as usize, count);
}

/// Prints the table; answers what is over.
pub fn show(areas: &mut Areas) -> Vec<String> {
    let titles = [
        "pending",
        "mean age, ns",
        "question of no pairs, ns",
        "sum in Rust, ns",
        "ratio to both",
    ];
    table::head("### Mean ages", &titles.map(String::from));
    let mut all: Vec<Measured> = COUNTS.iter().map(|_| Measured::default()).collect();
    for attempt in 0..ATTEMPTS {
        for (count, measured) in COUNTS.iter().zip(&mut all) {
            for number in 0..ROUNDS {
                round(*count, attempt * ROUNDS + number, areas, measured);
            }
        }
    }
    let mut over = Vec::new();
    for (count, measured) in COUNTS.iter().zip(&all) {
        let found = measured.mean.median().zip(measured.limit());
        let found = found.map(|(mean, limit)| mean / limit);
        table::line(&[
            count.to_string(),
            table::nanoseconds(measured.mean.median()),
            table::nanoseconds(measured.question.median()),
            table::nanoseconds(measured.sum.median()),
            format!("{} (1.0)", table::ratio(found)),
        ]);
        if let Some(found) = found.filter(|found| *found > MARGIN) {
            over.push(format!(
                "mean age of {count}: {found:.2} of a question and the sum, held to 1.00"
            ));
        }
    }
    over
}
