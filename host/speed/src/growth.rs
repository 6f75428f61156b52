//! The same steps at growing sizes: half of n ids announced to or received from a table, and n checked.

use crate::bound::{Bound, ANNOUNCED, REMOVED};
use crate::case::{Areas, Case, Prepared};
use crate::cases::{among, beside};
use crate::data::{call, pending, CLOCK, LONG_AGO};
use crate::ids::Ids;
use crate::measure::{measure, over};
use crate::table;
use keeper_values::numbers::kinds;

const SIZES: [usize; 5] = [64, 128, 256, 512, 1_024];

/// From so many ids on a step is held to something.
const HELD_FROM: usize = 256;

struct Step {
    name: &'static str,
    /// How many of n are ids of the step.
    ids: fn(usize) -> usize,
    bounds: &'static [Bound],
    recipe: fn(&mut Ids, usize) -> Prepared,
}

const STEPS: [Step; 4] = [
    Step {
        name: "n / 2 announced into n / 2",
        ids: |n| n / 2,
        bounds: ANNOUNCED,
        recipe: |ids, n| beside(ids, kinds::ANNOUNCED, n / 2, n / 2),
    },
    Step {
        name: "n / 2 received of n",
        ids: |n| n / 2,
        bounds: REMOVED,
        recipe: |ids, n| among(ids, kinds::RECEIVED, n / 2, n),
    },
    Step {
        name: "check of n, all retried",
        ids: |n| n,
        bounds: ANNOUNCED,
        recipe: |ids, n| Prepared::new(pending(&ids.draw(n), LONG_AGO), call(kinds::CHECK)),
    },
    Step {
        name: "check of n, nothing expired",
        ids: |_| 0,
        bounds: &[],
        recipe: |ids, n| Prepared::new(pending(&ids.draw(n), CLOCK), call(kinds::CHECK)),
    },
];

impl Step {
    fn at(&self, n: usize) -> Case {
        let recipe = self.recipe;
        let held = (self.ids)(n) >= HELD_FROM;
        let bounds = if held { self.bounds } else { &[] };
        let name = format!("{}, n = {n}", self.name);
        Case::tracked(&name, bounds, move |ids| recipe(ids, n))
    }
}

/// Prints the table; answers what is over.
pub fn show(areas: &mut Areas) -> Vec<String> {
    let titles = SIZES.map(|n| n.to_string());
    table::head(
        "### Growth in n",
        &[&[String::from("n")], &titles[..]].concat(),
    );
    let cases: Vec<Case> = STEPS
        .iter()
        .flat_map(|step| SIZES.map(|n| step.at(n)))
        .collect();
    let measured = measure(&cases, areas);
    for (step, row) in STEPS.iter().zip(measured.chunks(SIZES.len())) {
        let mut cells = vec![step.name.to_string()];
        cells.extend(row.iter().map(table::core_to_original));
        table::line(&cells);
    }
    over(&cases, &measured)
}
