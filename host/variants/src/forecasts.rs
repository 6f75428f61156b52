//! Faults in the forecast (F-3): figures that are not the step's.

use crate::{variant, Variant, FORECAST};
use keeper_reference::{entries, forecast, image, Rules, PLAIN};
use keeper_values::numbers::{commands, widths};
use keeper_values::{read_commands, Arguments, Forecast};

const HEADER: u32 = widths::HEADER as u32;

pub fn variants() -> Vec<Variant> {
    [counts(), lengths(), refusals()].concat()
}

fn fault(fault: &'static str, forecast: fn(&Rules, &[u8], &Arguments) -> Forecast) -> Variant {
    let rules = Rules { forecast, ..PLAIN };
    variant(FORECAST, fault, rules)
}

/// The counts before a step, pending and evicted; none where the image can't be read.
fn before(rules: &Rules, state: &[u8]) -> [u32; 2] {
    image::read(rules, state).map_or([0; 2], |before| {
        [before.pending.len() as u32, before.evicted.len() as u32]
    })
}

/// The forecast, that of a finished step changed by the counts before it.
fn finished(
    rules: &Rules,
    state: &[u8],
    call: &Arguments,
    changed: fn(Forecast, [u32; 2]) -> Forecast,
) -> Forecast {
    match forecast::forecast(rules, state, call) {
        finished if finished.number == 0 => changed(finished, before(rules, state)),
        refused => refused,
    }
}

fn counts() -> Vec<Variant> {
    vec![
        fault(
            "the forecast has what is pending before the step",
            |rules, state, call| {
                finished(rules, state, call, |forecast, [pending, _]| Forecast {
                    pending,
                    ..forecast
                })
            },
        ),
        fault(
            "the forecast has what is evicted before the step",
            |rules, state, call| {
                finished(rules, state, call, |forecast, [_, evicted]| Forecast {
                    evicted,
                    ..forecast
                })
            },
        ),
        fault(
            "every outcome is foretold as Continue",
            |rules, state, call| Forecast {
                outcome: 0,
                ..forecast::forecast(rules, state, call)
            },
        ),
    ]
}

fn lengths() -> Vec<Variant> {
    vec![
        variant(
            FORECAST,
            "commands are foretold by the batch",
            Rules {
                count_commands: |written| {
                    let commands = read_commands(written).unwrap_or_default();
                    let last = commands.last();
                    last.map_or(0, |last| u32::from(last.batch) + 1)
                },
                ..PLAIN
            },
        ),
        fault(
            "the bytes of a sync info are not foretold",
            |rules, state, call| {
                let (answer, written) = forecast::tried(rules, state, call);
                let commands = read_commands(&written).unwrap_or_default();
                let infos = commands.iter().filter(|c| c.kind == commands::SYNC_INFO);
                let infos = infos.count() as u32;
                let figures = forecast::figures(rules, &answer, &written);
                Forecast {
                    length: figures.length - HEADER * infos,
                    ..figures
                }
            },
        ),
        fault(
            "the ids alone are foretold as bytes",
            |rules, state, call| {
                let figures = forecast::forecast(rules, state, call);
                Forecast {
                    length: figures.length - HEADER * figures.commands,
                    ..figures
                }
            },
        ),
    ]
}

fn refusals() -> Vec<Variant> {
    vec![
        fault(
            "3 is foretold, as no command area is lent",
            |rules, state, call| {
                let answer = entries::step(rules, &mut state.to_vec(), &mut [], call);
                forecast::figures(rules, &answer, &[])
            },
        ),
        fault(
            "with a refusal the forecast has the counts as they stay",
            |rules, state, call| match forecast::forecast(rules, state, call) {
                refused if refused.number != 0 => {
                    let [pending, evicted] = before(rules, state);
                    Forecast {
                        pending,
                        evicted,
                        ..refused
                    }
                }
                finished => finished,
            },
        ),
        fault("10 and 11 are not foretold", |rules, state, call| {
            let any = Rules {
                result_fits: |_, _| Ok(()),
                ..*rules
            };
            forecast::forecast(&any, state, call)
        }),
        fault("4 is not foretold", |rules, state, call| {
            let any = Rules {
                clock_fits: |_, _| true,
                ..*rules
            };
            forecast::forecast(&any, state, call)
        }),
    ]
}
