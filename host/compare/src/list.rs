//! The fixed list: made and written.

use crate::cases::{random_lines, script_lines, try_random, try_script};
use crate::maps::{try_random as try_random_map, try_script as try_map_script};
use crate::report::Report;
use crate::tell::{streams, tells};
use keeper_play::record;
use keeper_reference::Reference;
use keeper_streams::maps::{self, RandomMap};
use keeper_streams::text::Line;
use keeper_streams::{directed, hostile};
use keeper_values::{Keeper, MAP_BYTES};
use keeper_variants::Variant;
use std::cmp::Reverse;
use std::collections::{BTreeMap, BTreeSet};

pub fn write(lines: &[Line]) -> String {
    lines.iter().map(|line| line.write() + "\n").collect()
}

/// Streams longer than this are taken only for what no shorter one tells.
const SHORT: usize = 12_000;

/// Streams longer than this are not taken.
const LONGEST: usize = 140_000;

/// Keys below this are variants.
const VARIANTS: u64 = 1_000;

struct Candidate {
    lines: Vec<Line>,
    size: usize,
    /// The variants that it tells apart, and from these on what kinds of step it shows.
    keys: BTreeSet<u64>,
}

/// Kind, mode and outcome of each finished step, number and mode of each refused one, each number of a mean age, and each call of
/// the map with its number, so that the list shows all.
fn shown(lines: &[Line]) -> BTreeSet<u64> {
    let mut keys = BTreeSet::new();
    let mut mode = 0;
    for pair in lines.windows(2) {
        match pair {
            [Line::Step(call, _), Line::Answer(numbers)] => {
                let kind = u64::from(call.kind.min(17));
                let (number, outcome) = (numbers[0], numbers[1]);
                keys.insert(if number == 0 {
                    VARIANTS + kind + 100 * mode + 1_000 * outcome
                } else {
                    10_000 + 100 * number + mode
                });
            }
            [Line::MapCall(call), Line::Answer(numbers)] => {
                keys.insert(20_000 + 100 * call.kind() as u64 + numbers[0]);
            }
            [Line::Age(_), Line::Answer(numbers)] => {
                keys.insert(30_000 + numbers[0]);
            }
            [_, Line::State(state) | Line::Put(state)] | [Line::Put(state), _] => {
                mode = u64::from(state.mode.number());
            }
            _ => {}
        }
    }
    keys
}

fn candidate(variants: &[Variant], calls: &[Line]) -> Result<Candidate, String> {
    let lines = record(&Reference::plain(), calls)?;
    let mut keys = shown(&lines);
    for (index, variant) in variants.iter().enumerate() {
        if tells(variant, &lines) {
            keys.insert(index as u64);
        }
    }
    Ok(Candidate {
        size: write(&lines).len(),
        lines,
        keys,
    })
}

/// A random stream of the map, cut after some calls, with the question after each.
pub fn random_map_lines(seed: u64, most: usize) -> Vec<Line> {
    let reference = Reference::plain();
    let mut random = RandomMap::new(seed);
    let mut map = vec![0; MAP_BYTES];
    let mut lines = vec![Line::Stream(format!("random map {seed}"))];
    for _ in 0..random.length.min(most) {
        let call = random.next(&map);
        reference.map_call(&mut map, &call);
        lines.extend([Line::MapCall(call), Line::Passable]);
    }
    lines
}

/// Candidates: directed streams and random ones that the oracle agrees with, and hostile ones that it can't judge;
/// streams of the map that rule 5 agrees with.
fn candidates(variants: &[Variant], seeds: u64) -> Result<Vec<Candidate>, String> {
    let reference = Reference::plain();
    let mut report = Report::default();
    let mut all = Vec::new();
    for script in directed::scripts() {
        try_script(&[&reference], &script, &mut report)?;
        all.push(candidate(variants, &script_lines(&script))?);
    }
    for case in hostile::cases() {
        all.push(candidate(variants, &case.lines())?);
    }
    for seed in 1..=seeds {
        try_random(&[&reference], seed, &mut report)?;
        all.push(candidate(
            variants,
            &random_lines(seed, 12, seed % 3 == 0)?,
        )?);
    }
    for script in maps::scripts() {
        try_map_script(&[&reference], &script, &mut report)?;
        all.push(candidate(variants, &script.lines())?);
    }
    for seed in 1..=seeds {
        try_random_map(&[&reference], seed, &mut report)?;
        all.push(candidate(variants, &random_map_lines(seed, 8))?);
    }
    Ok(all)
}

/// How often each key has been shown.
type Seen = BTreeMap<u64, u32>;

fn see(seen: &mut Seen, candidate: &Candidate) {
    for key in &candidate.keys {
        *seen.entry(*key).or_default() += 1;
    }
}

/// What a candidate adds: keys not yet shown and, if it is short, variants told once so far.
fn worth(seen: &Seen, candidate: &Candidate) -> u64 {
    let short = candidate.size <= SHORT;
    let new = |key: &&u64| match seen.get(key) {
        None => **key < VARIANTS || short,
        Some(1) => **key < VARIANTS && short,
        Some(_) => false,
    };
    candidate.keys.iter().filter(new).count() as u64
}

/// The stream that adds most for its size, then the next, until none adds anything.
fn chosen(candidates: &[Candidate]) -> Vec<&Candidate> {
    let mut left: Vec<&Candidate> = candidates.iter().collect();
    left.retain(|candidate| candidate.size <= LONGEST);
    let mut seen = Seen::new();
    let mut chosen = Vec::new();
    loop {
        let rate = |candidate: &Candidate| {
            worth(&seen, candidate) * 1_000_000_000 / (candidate.size as u64 + 400)
        };
        let best = (0..left.len()).max_by_key(|index| rate(left[*index]));
        let Some(best) = best.filter(|index| worth(&seen, left[*index]) > 0) else {
            return chosen;
        };
        let best = left.swap_remove(best);
        see(&mut seen, best);
        chosen.push(best);
    }
}

/// Those without which the others would be less: the longest that adds nothing to the others goes first.
fn needed(chosen: Vec<&Candidate>) -> Vec<&Candidate> {
    let mut by_size: Vec<usize> = (0..chosen.len()).collect();
    by_size.sort_by_key(|index| Reverse(chosen[*index].size));
    let mut kept: BTreeSet<usize> = by_size.iter().copied().collect();
    for index in by_size {
        let mut seen = Seen::new();
        for other in kept.iter().filter(|other| **other != index) {
            see(&mut seen, chosen[*other]);
        }
        if worth(&seen, chosen[index]) == 0 {
            kept.remove(&index);
        }
    }
    kept.into_iter().map(|index| chosen[index]).collect()
}

/// Makes the list.
pub fn make(variants: &[Variant], seeds: u64) -> Result<Vec<Line>, String> {
    let candidates = candidates(variants, seeds)?;
    let needed = needed(chosen(&candidates));
    let lines = needed.iter().flat_map(|candidate| candidate.lines.clone());
    Ok(lines.collect())
}

/// How many streams a list has.
pub fn count(lines: &[Line]) -> usize {
    streams(lines).len()
}
