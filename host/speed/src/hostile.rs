//! Ids that were chosen to make a search or a sort slow, against random ones in the same rounds.

use crate::beside::{time_plain, time_tracker};
use crate::case::{Areas, Case};
use crate::cases::{announced_400, question_for_a_check, received_400, window_new, window_pending};
use crate::ids::kinds;
use crate::measure::{time_core, MARGIN};
use crate::table;
use crate::times::{against, Times, ATTEMPTS, ROUNDS};
use keeper_oracle::Maps;

/// How many times as long as with random ids a call may take, unless it is no slower than it was before.
const TO_RANDOM: f64 = 2.0;

struct Call {
    case: Case,
    /// For each kind the time of the core that halved at every search and merged at every sort, in times of the Rust on
    /// the same ids: the median of three runs.
    before: [f64; 9],
}

fn calls() -> Vec<Call> {
    let call = |case, before| Call { case, before };
    vec![
        call(
            received_400(),
            [0.74, 0.69, 0.86, 0.73, 0.73, 0.73, 0.86, 0.74, 0.86],
        ),
        call(
            announced_400(),
            [0.90, 0.66, 1.03, 0.90, 0.89, 0.89, 1.05, 0.89, 1.07],
        ),
        call(
            window_new(),
            [1.27, 1.14, 1.37, 1.26, 1.26, 1.26, 1.41, 1.26, 1.41],
        ),
        call(
            window_pending(),
            [1.55, 1.47, 1.73, 1.54, 1.53, 1.54, 1.74, 1.54, 1.71],
        ),
        call(
            question_for_a_check(),
            [1.72, 5.69, 1.87, 1.71, 1.70, 1.70, 2.25, 2.03, 2.25],
        ),
    ]
}

/// Times with ids of one kind.
#[derive(Default)]
struct Side {
    core: Times,
    /// The same work in Rust on the same ids: the tracker over `BTreeMap`, sorted pairs.
    rust: Times,
}

/// What one kind of ids comes to.
struct Cell {
    core: Option<f64>,
    to_random: Option<f64>,
    to_before: Option<f64>,
}

impl Cell {
    /// The share that the better of both ratios has of what it is held to.
    fn share(&self) -> f64 {
        let to_random = self.to_random.map(|ratio| ratio / TO_RANDOM);
        let shares = [to_random, self.to_before].into_iter().flatten();
        shares.fold(f64::INFINITY, f64::min)
    }

    fn ratios(&self) -> [String; 2] {
        [self.to_random, self.to_before].map(table::ratio)
    }

    fn show(&self) -> String {
        let [to_random, to_before] = self.ratios();
        let core = table::nanoseconds(self.core);
        format!("{core} ({to_random}; {to_before})")
    }
}

/// One attempt: a call with ids of each kind, all in turn.
fn attempt(case: &Case, areas: &mut Areas, number: usize, sides: &mut [Side]) {
    for round in 0..ROUNDS {
        for (index, ((kind, _), side)) in kinds().iter().zip(&mut *sides).enumerate() {
            // Numbers that neither another kind has nor the table in which the case stands.
            let first = (index + 1) * ATTEMPTS * ROUNDS;
            let prepared = case.prepare(*kind, first + number * ROUNDS + round);
            time_core(case, &prepared, areas, &mut side.core);
            let tracker = time_tracker(case, &prepared, Maps::Ordered).map(|(took, _)| took);
            if let Some(took) = tracker.or_else(|| time_plain(case, &prepared)) {
                side.rust.add(took, 1);
            }
        }
    }
}

/// For each call its cells, one for each kind.
fn measure(calls: &[Call], areas: &mut Areas) -> Vec<Vec<Cell>> {
    let none = || kinds().iter().map(|_| Side::default()).collect();
    let mut all: Vec<Vec<Side>> = calls.iter().map(|_| none()).collect();
    for number in 0..ATTEMPTS {
        for (call, sides) in calls.iter().zip(&mut all) {
            attempt(&call.case, areas, number, sides);
        }
    }
    let cells = |(call, sides): (&Call, &Vec<Side>)| {
        let cell = |(side, before): (&Side, f64)| Cell {
            core: side.core.median(),
            to_random: against(&side.core, &sides[0].core),
            to_before: against(&side.core, &side.rust).map(|now| now / before),
        };
        sides.iter().zip(call.before).map(cell).collect()
    };
    calls.iter().zip(&all).map(cells).collect()
}

/// Prints the table; answers what is over.
pub fn show(areas: &mut Areas) -> Vec<String> {
    let calls = calls();
    let columns = measure(&calls, areas);
    let names = calls.iter().map(|call| call.case.name.clone());
    let titles: Vec<String> = std::iter::once(String::new()).chain(names).collect();
    table::head("### Hostile ids", &titles);
    let mut over = Vec::new();
    for (index, (_, kind)) in kinds().iter().enumerate() {
        let mut cells = vec![kind.to_string()];
        for (call, column) in calls.iter().zip(&columns) {
            let cell = &column[index];
            cells.push(cell.show());
            if cell.share() > MARGIN {
                let name = &call.case.name;
                let [to_random, to_before] = cell.ratios();
                over.push(format!(
                    "{name}, {kind}: {to_random} of random ids, held to {TO_RANDOM:.2}, and {to_before} of before"
                ));
            }
        }
        table::line(&cells);
    }
    over
}
