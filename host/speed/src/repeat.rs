//! The core's calls alone, for a profiler.

use crate::case::Areas;
use crate::cases;
use crate::ids::kinds;
use crate::map;
use std::hint::black_box;

/// More than a processor learns by heart.
const INPUTS: usize = 64;

/// So many calls of the case of this name with ids of the kind of that name, or of the map. Answers whether both are there.
pub fn repeat(name: &str, ids: &str, calls: usize, areas: &mut Areas) -> bool {
    if map::repeat(name, INPUTS, calls) {
        return true;
    }
    let case = cases::all().into_iter().find(|case| case.name == name);
    let kind = kinds().into_iter().find(|(_, kind)| *kind == ids);
    let (Some(case), Some((kind, _))) = (case, kind) else {
        return false;
    };
    let inputs: Vec<_> = (0..INPUTS).map(|round| case.prepare(kind, round)).collect();
    for prepared in inputs.iter().cycle().take(calls) {
        prepared.restore(areas);
        black_box(case.run(areas, &prepared.arguments));
    }
    true
}
