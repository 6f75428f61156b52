//! The calls of the map of the window against what a shell does without them, on the same data in the same rounds.

use crate::area::Area;
use crate::case::{Areas, Case, Prepared};
use crate::data::{pending, synced, window, CLOCK, HEIGHT};
use crate::ids::RANDOM;
use crate::measure::{time_core, MARGIN};
use crate::table;
use crate::times::{against, time, Times, ATTEMPTS, ROUNDS};
use keeper_values::{Row, View};
use request_keeper::{boundary, MAP_BYTES};
use std::hint::black_box;
use std::slice::from_ref;

/// The window's first height: all of it is stored but the section that comes in.
const FIRST: u32 = HEIGHT + 1;
/// One height above the window, for a slide by one.
const CHAIN_HEIGHT: u32 = HEIGHT + 193;

/// What a shell does instead.
#[derive(Debug, Clone, Copy, PartialEq, Eq)]
enum Instead {
    /// It hands in a section tick with a view of the whole window.
    Tick,
    /// It fills the map afresh.
    Fill,
}

impl Instead {
    fn name(self) -> &'static str {
        match self {
            Self::Tick => "section tick, 192 rows",
            Self::Fill => "fill",
        }
    }
}

/// The data of one round, for both sides.
struct Round {
    /// The tick after the section has come in.
    tick: Prepared,
    /// The place of the section.
    place: u8,
    /// The map before the section came, and after.
    before: [u8; MAP_BYTES],
    after: [u8; MAP_BYTES],
    /// The height behind the window alone, and the window with it.
    behind: Vec<u8>,
    slid: Vec<u8>,
}

struct Call {
    name: &'static str,
    instead: Instead,
    at_most: Option<f64>,
    /// What the map holds before the call.
    from: fn(&Round) -> &[u8; MAP_BYTES],
    /// Answers the number, and 0 where no height is asked for.
    run: fn(&mut [u8], &Round) -> (u32, u32),
    /// What it holds after it.
    to: fn(&Round) -> [u8; MAP_BYTES],
}

fn filled(downloaded: u32, view: &[u8]) -> [u8; MAP_BYTES] {
    let mut map = [0; MAP_BYTES];
    let number = boundary::map_fill(&mut map, downloaded, CHAIN_HEIGHT, view);
    assert_eq!(number, 0, "the map can be filled");
    map
}

fn arrived(map: &mut [u8], round: &Round) -> (u32, u32) {
    (boundary::map_arrived(map, FIRST, round.place), 0)
}

fn passable(map: &mut [u8], _: &Round) -> (u32, u32) {
    let answer = boundary::map_passable(map);
    (answer.number, answer.heights)
}

const CALLS: [Call; 6] = [
    Call {
        name: "arrived and passable",
        instead: Instead::Tick,
        at_most: Some(1.0 / 20.0),
        from: |round| &round.before,
        run: |map, round| {
            let (number, _) = arrived(map, round);
            let (other, heights) = passable(map, round);
            (number | other, heights)
        },
        to: |round| round.after,
    },
    Call {
        name: "arrived",
        instead: Instead::Tick,
        at_most: None,
        from: |round| &round.before,
        run: arrived,
        to: |round| round.after,
    },
    Call {
        name: "pruned",
        instead: Instead::Tick,
        at_most: None,
        from: |round| &round.after,
        run: |map, round| (boundary::map_pruned(map, FIRST, round.place), 0),
        to: |round| round.before,
    },
    Call {
        name: "passable",
        instead: Instead::Tick,
        at_most: None,
        from: |round| &round.after,
        run: passable,
        to: |round| round.after,
    },
    Call {
        name: "fill",
        instead: Instead::Tick,
        at_most: Some(1.0),
        from: |round| &round.before,
        run: |map, round| {
            let view = &round.tick.arguments.view;
            (boundary::map_fill(map, HEIGHT, CHAIN_HEIGHT, view), 0)
        },
        to: |round| round.after,
    },
    Call {
        name: "slide by one",
        instead: Instead::Fill,
        at_most: Some(1.0),
        from: |round| &round.after,
        run: |map, round| (boundary::map_slide(map, FIRST, &round.behind), 0),
        to: |round| filled(FIRST, &round.slid),
    },
];

/// A section tick after a section came in: the first height is complete, of the others' sections about half are stored, and
/// what is missing is pending.
fn tick(name: &str) -> Case {
    Case::idle(name, |ids| {
        let mut call = window(&ids.draw(576));
        let mut missing = Vec::new();
        for (index, row) in call.view.rows.iter_mut().enumerate() {
            let Row::Present(places) = row else { continue };
            for place in places {
                place.stored = index == 0 || place.id[0] % 2 == 0;
                if !place.stored {
                    missing.push(place.id);
                }
            }
        }
        Prepared::new(synced(pending(&missing, CLOCK)), call)
    })
}

impl Round {
    fn new(tick: Prepared) -> Self {
        let View { first, rows } = &tick.call.view;
        let (Some(Row::Present(places)), Some(last)) = (rows.first(), rows.last()) else {
            panic!("a window has rows");
        };
        let place = places[0].id[1] % 3;
        let after = filled(HEIGHT, &tick.arguments.view);
        let mut before = after;
        assert_eq!(boundary::map_pruned(&mut before, FIRST, place), 0);
        let view = |first, rows| View { first, rows }.to_bytes();
        let behind = view(CHAIN_HEIGHT, vec![last.clone()]);
        let slid = view(*first, [&rows[..], from_ref(last)].concat());
        Self {
            tick,
            place,
            before,
            after,
            behind,
            slid,
        }
    }
}

#[derive(Default)]
struct Measured {
    map: Times,
    instead: Times,
}

/// Both sides once, each with answers that are checked.
fn round(call: &Call, case: &Case, number: usize, areas: &mut Areas, measured: &mut Measured) {
    let round = Round::new(case.prepare(RANDOM, number));
    let mut area = Area::zero();
    let map = &mut area.bytes_mut()[..MAP_BYTES];
    match call.instead {
        Instead::Tick => time_core(case, &round.tick, areas, &mut measured.instead),
        Instead::Fill => {
            let took = time(|| boundary::map_fill(map, FIRST, CHAIN_HEIGHT, &round.slid));
            measured.instead.add(took, 1);
        }
    }
    map.copy_from_slice((call.from)(&round));
    let mut answered = (0, 0);
    let took = time(|| answered = black_box((call.run)(black_box(&mut *map), &round)));
    measured.map.add(took, 1);
    assert_eq!(answered.0, 0, "{}", call.name);
    assert!(*map == (call.to)(&round), "{}", call.name);
    if call.instead == Instead::Tick && answered.1 > 0 {
        // What the map says is what the step has passed.
        assert_eq!(answered.1, areas.downloaded() - HEIGHT, "{}", call.name);
    }
}

/// So many calls of this name alone, over these inputs. Answers whether there is such a call.
pub fn repeat(name: &str, inputs: usize, calls: usize) -> bool {
    let Some(call) = CALLS.iter().find(|call| call.name == name) else {
        return false;
    };
    let case = tick(name);
    let input = |round| Round::new(case.prepare(RANDOM, round));
    let inputs: Vec<Round> = (0..inputs).map(input).collect();
    for round in inputs.iter().cycle().take(calls) {
        let mut map = *(call.from)(round);
        black_box((call.run)(black_box(&mut map), round));
    }
    true
}

fn measure(areas: &mut Areas) -> Vec<Measured> {
    let mut all: Vec<Measured> = CALLS.iter().map(|_| Measured::default()).collect();
    for attempt in 0..ATTEMPTS {
        for (call, measured) in CALLS.iter().zip(&mut all) {
            let case = tick(call.name);
            for number in 0..ROUNDS {
                round(call, &case, attempt * ROUNDS + number, areas, measured);
            }
        }
    }
    all
}

/// Prints the table; answers what is over.
pub fn show(areas: &mut Areas) -> Vec<String> {
    let titles = ["", "core, ns", "best", "instead", "ns", "ratio"].map(String::from);
    table::head("### The map of the window", &titles);
    let mut over = Vec::new();
    for (call, measured) in CALLS.iter().zip(measure(areas)) {
        let (name, instead) = (call.name, call.instead.name());
        let found = against(&measured.map, &measured.instead);
        let ratio = format!("{:.3}", found.unwrap_or(f64::NAN));
        let held = call
            .at_most
            .map(|at_most| format!("{ratio} ({at_most:.2})"));
        table::line(&[
            name.to_string(),
            table::nanoseconds(measured.map.median()),
            table::nanoseconds(measured.map.best()),
            instead.to_string(),
            table::nanoseconds(measured.instead.median()),
            held.unwrap_or_else(|| ratio.clone()),
        ]);
        if let Some(at_most) = call.at_most {
            if found.is_some_and(|found| found > at_most * MARGIN) {
                over.push(format!(
                    "{name}: {ratio} of {instead}, held to {at_most:.2}"
                ));
            }
        }
    }
    over
}
