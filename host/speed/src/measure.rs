//! All sides of a case, timed in turn, each round with data of its own.

use crate::beside::{time_memory, time_plain, time_read, time_tracker};
use crate::bound::{Against, Bound};
use crate::case::{Areas, Beside, Case, Entry, Memory, Prepared};
use crate::ids::RANDOM;
use crate::times::{time, Times, ATTEMPTS, ROUNDS};
use keeper_oracle::{Maps, Oracle};
use std::hint::black_box;

/// How far above what it is held to a ratio may come: what two runs on a machine under load differ by.
pub const MARGIN: f64 = 1.10;

#[derive(Default)]
pub struct Measured {
    pub core: Times,
    /// The memory part of the limit.
    pub memory: Times,
    /// One read of the state area: what a refused call cannot do without.
    pub read: Times,
    /// The original's tracker over `BTreeMap`.
    pub ordered: Times,
    /// The same over `HashMap`.
    pub hashed: Times,
    /// Plain Rust.
    pub plain: Times,
    /// The original's whole step, with stand-ins for network, store and chain.
    pub original: Times,
}

impl Measured {
    fn other(&self, case: &Case, against: Against) -> Option<f64> {
        match against {
            Against::Limit => self.limit(case),
            Against::Hashed => self.hashed.median(),
            Against::Original => self.original.median(),
        }
    }

    /// The memory part, and the Rust's work on the same data. `None` where there is nothing to hold a case against.
    fn limit(&self, case: &Case) -> Option<f64> {
        let memory = self.memory.median()?;
        match (case.memory, case.beside) {
            (Memory::None, _) => None,
            (_, Beside::Tracker) => Some(memory + self.ordered.median()?),
            (_, Beside::Pairs) => Some(memory + self.plain.median()?),
            (_, Beside::Nothing | Beside::ImageTest) => Some(memory),
        }
    }

    pub fn ratio(&self, case: &Case, against: Against) -> Option<f64> {
        Some(self.core.median()? / self.other(case, against)?)
    }

    /// What the case is held to and passes by more than the margin, in words.
    fn over(&self, case: &Case) -> Vec<String> {
        let words = |bound: &Bound| {
            let ratio = self.ratio(case, bound.against)?;
            let (name, against, at_most) = (&case.name, bound.against.name(), bound.at_most);
            (ratio > at_most * MARGIN)
                .then(|| format!("{name}: {ratio:.2} of {against}, held to {at_most:.2}"))
        };
        case.bounds.iter().filter_map(words).collect()
    }
}

/// The core's call. One that is refused at once takes too little for one reading of the clock: many are timed together.
pub fn time_core(case: &Case, prepared: &Prepared, areas: &mut Areas, times: &mut Times) {
    let calls = if case.memory == Memory::None {
        1_000
    } else {
        1
    };
    let arguments = prepared.arguments.clone();
    prepared.restore(areas);
    let mut number = 0;
    let took = time(|| {
        for _ in 0..calls {
            number = black_box(case.run(areas, &arguments));
        }
    });
    assert_eq!(number, case.number, "{}", case.name);
    times.add(took, calls);
}

/// Each side once.
fn round(case: &Case, prepared: &Prepared, areas: &mut Areas, measured: &mut Measured) {
    time_core(case, prepared, areas, &mut measured.core);
    let pending = areas.pending();
    measured.memory.add(time_memory(case, prepared, areas), 1);
    if case.number != 0 {
        measured.read.add(time_read(prepared, areas), 1);
    }
    for (maps, times) in [
        (Maps::Ordered, &mut measured.ordered),
        (Maps::Hashed, &mut measured.hashed),
    ] {
        if let Some((took, left)) = time_tracker(case, prepared, maps) {
            times.add(took, 1);
            // What is timed is the same work.
            assert!(case.number != 0 || left == pending, "{}", case.name);
        }
    }
    if let Some(took) = time_plain(case, prepared) {
        measured.plain.add(took, 1);
    }
    if case.number == 0 && case.entry == Entry::Step {
        if let Some(original) = Oracle::put(&prepared.state) {
            measured.original.add(original.time(&prepared.call), 1);
        }
    }
}

/// Every case in each attempt, so that what disturbs the machine for a while does not meet all attempts of one case.
pub fn measure(cases: &[Case], areas: &mut Areas) -> Vec<Measured> {
    let mut all: Vec<Measured> = cases.iter().map(|_| Measured::default()).collect();
    for attempt in 0..ATTEMPTS {
        for (case, measured) in cases.iter().zip(&mut all) {
            for number in 0..ROUNDS {
                let prepared = case.prepare(RANDOM, attempt * ROUNDS + number);
                round(case, &prepared, areas, measured);
            }
        }
    }
    all
}

/// What is over in these cases.
pub fn over(cases: &[Case], measured: &[Measured]) -> Vec<String> {
    let both = cases.iter().zip(measured);
    both.flat_map(|(case, measured)| measured.over(case))
        .collect()
}
