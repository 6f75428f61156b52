//! The forecast (F-3) against the step that it foretells, on the same data in the same rounds: against the whole step where
//! that works on copies, else against the step and one copy of the state area.

use crate::case::{Areas, Case, Prepared};
use crate::cases;
use crate::data::{call, pending, CLOCK};
use crate::ids::RANDOM;
use crate::measure::MARGIN;
use crate::table;
use crate::times::{time, Times, ATTEMPTS, ROUNDS};
use keeper_core::Core;
use keeper_values::numbers::kinds;
use keeper_values::{Answer, Call, Forecast, Keeper};
use std::hint::black_box;

/// A step, and whether it works on copies.
struct Foretold {
    case: Case,
    copies: bool,
}

/// All that a lost sync peer owes is asked of another.
fn lost_peer() -> Case {
    Case::idle("lost peer, 1,024 asked of another", |ids| {
        let state = pending(&ids.draw(1_024), CLOCK);
        let lost = Call {
            peer: state.sync_peer.unwrap_or_default(),
            peers: vec![77],
            ..call(kinds::LOST_PEER)
        };
        Prepared::new(state, lost)
    })
}

fn steps() -> Vec<Foretold> {
    let named = |names: &[&str], copies| {
        let mut all = cases::all();
        all.retain(|case| names.contains(&case.name.as_str()));
        assert_eq!(all.len(), names.len(), "a case of each name");
        all.into_iter().map(move |case| Foretold { case, copies })
    };
    let on_copies = [
        "window of 192, 576 new",
        "window of 192, 576 new into 448",
        "window of 192, all pending",
    ];
    let on_areas = [
        "nothing pending",
        "1,024 pending",
        "10, 400 ids into 700",
        "check of 1,024, all retried, one target",
        "check of 1,024, nothing expired",
        "received 400 of 1,024",
        "evicted 400 of 1,024",
        "announced 400 into 600",
        "announced 1 into 1,000",
    ];
    let lost = Foretold {
        case: lost_peer(),
        copies: true,
    };
    named(&on_copies, true)
        .chain([lost])
        .chain(named(&on_areas, false))
        .collect()
}

#[derive(Default)]
struct Measured {
    forecast: Times,
    step: Times,
    copy: Times,
}

impl Measured {
    /// What the forecast is held to.
    fn limit(&self, copies: bool) -> Option<f64> {
        let step = self.step.median()?;
        match copies {
            true => Some(step),
            false => Some(step + self.copy.median()?),
        }
    }
}

fn time_forecast(prepared: &Prepared, areas: &mut Areas, times: &mut Times) -> Forecast {
    let arguments = prepared.arguments.clone();
    prepared.restore(areas);
    let mut forecast = Forecast::default();
    let state = areas.state.bytes();
    let took = time(|| forecast = Core.forecast(black_box(state), black_box(&arguments)));
    times.add(took, 1);
    assert!(
        areas.state.bytes() == prepared.image.bytes(),
        "it is read only"
    );
    forecast
}

fn time_step(prepared: &Prepared, areas: &mut Areas, times: &mut Times) -> Answer {
    let arguments = prepared.arguments.clone();
    prepared.restore(areas);
    let mut answer = Answer::default();
    let (state, commands) = (areas.state.bytes_mut(), areas.commands.bytes_mut());
    let took = time(|| answer = Core.step(black_box(state), commands, black_box(&arguments)));
    times.add(took, 1);
    answer
}

fn time_copy(prepared: &Prepared, areas: &mut Areas, times: &mut Times) {
    prepared.restore(areas);
    let Areas { state, scratch, .. } = areas;
    let took = time(|| {
        black_box(scratch.bytes_mut()).copy_from_slice(black_box(state.bytes()));
    });
    times.add(took, 1);
}

/// Each side once, with answers that are checked. Forecast and step take turns in being the first.
fn round(step: &Foretold, number: usize, areas: &mut Areas, measured: &mut Measured) {
    let prepared = step.case.prepare(RANDOM, number);
    let Measured {
        forecast: forecasts,
        step: steps,
        copy,
    } = measured;
    let (forecast, answer) = if number.is_multiple_of(2) {
        let forecast = time_forecast(&prepared, areas, forecasts);
        (forecast, time_step(&prepared, areas, steps))
    } else {
        let answer = time_step(&prepared, areas, steps);
        (time_forecast(&prepared, areas, forecasts), answer)
    };
    time_copy(&prepared, areas, copy);
    let name = &step.case.name;
    assert_eq!(answer.number, step.case.number, "{name}");
    let foretold = [forecast.number, forecast.pending, forecast.length];
    assert_eq!(
        foretold,
        [answer.number, answer.pending, answer.length],
        "{name}"
    );
}

fn measure(steps: &[Foretold], areas: &mut Areas) -> Vec<Measured> {
    let mut all: Vec<Measured> = steps.iter().map(|_| Measured::default()).collect();
    for attempt in 0..ATTEMPTS {
        for (step, measured) in steps.iter().zip(&mut all) {
            for number in 0..ROUNDS {
                round(step, attempt * ROUNDS + number, areas, measured);
            }
        }
    }
    all
}

/// Prints the table; answers what is over.
pub fn show(areas: &mut Areas) -> Vec<String> {
    let titles = [
        "",
        "forecast, ns",
        "step, ns",
        "one copy, ns",
        "held to",
        "ratio",
    ];
    table::head("### Forecasts", &titles.map(String::from));
    let steps = steps();
    let mut over = Vec::new();
    for (step, measured) in steps.iter().zip(measure(&steps, areas)) {
        let name = &step.case.name;
        let held = match step.copies {
            true => "the step, on copies",
            false => "the step and one copy",
        };
        let forecast = measured.forecast.median();
        let found = forecast.zip(measured.limit(step.copies));
        let found = found.map(|(forecast, limit)| forecast / limit);
        table::line(&[
            name.clone(),
            table::nanoseconds(forecast),
            table::nanoseconds(measured.step.median()),
            table::nanoseconds(measured.copy.median()),
            held.to_string(),
            format!("{} (1.0)", table::ratio(found)),
        ]);
        if let Some(found) = found.filter(|found| *found > MARGIN) {
            over.push(format!(
                "forecast, {name}: {found:.2} of {held}, held to 1.00"
            ));
        }
    }
    over
}
