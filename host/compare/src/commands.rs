//! The commands.

use keeper_compare::report::Report;
use keeper_compare::{cases, differences, hostile as hostiles, hostile_maps, keepers, list};
use keeper_compare::{maps, tell};
use keeper_oracle::SOURCE_FOUND;
use keeper_streams::text::Line;
use keeper_streams::{directed, exhaustive, maps as map_streams};
use std::time::{Duration, Instant, SystemTime, UNIX_EPOCH};

type Done = Result<(), String>;

const LIST: &str = include_str!("../../fixed/streams.txt");

/// Time that the quick command gives to random streams under the oracle.
const QUICK_RANDOM: Duration = Duration::from_secs(12);

/// Time that the quick command gives to random streams of the map.
const QUICK_MAPS: Duration = Duration::from_millis(800);

/// Steps for each call of the map, in a run and under damage.
const STEPS_A_MAP_CALL: u64 = 5;

const NO_SOURCE: &str =
    "oracle: SKIPPED, the original Rust was not found when this was built (shared/docs/src beside \
the project, or KEEPER_RUST_SRC)";

const NO_CORE: &str =
    "core: SKIPPED, built with --no-default-features; what follows is of oracle and reference alone";

/// A seed that differs from run to run; it is printed, so that a run can be repeated.
fn fresh_seed() -> u64 {
    let now = SystemTime::now().duration_since(UNIX_EPOCH);
    now.map_or(1, |now| now.as_nanos() as u64 >> 8)
}

fn fixed_list() -> Result<Vec<Line>, String> {
    keeper_play::read(LIST).map_err(|line| format!("fixed list: line {line} can't be read"))
}

/// Directed and exhaustive streams under the oracle.
fn known_streams(depth: u32, report: &mut Report) -> Done {
    let keepers = keepers::all();
    for script in directed::scripts() {
        cases::try_script(&keepers, &script, report)?;
    }
    for depth in 1..=depth {
        for script in exhaustive::scripts(depth) {
            cases::try_script(&keepers, &script, report)?;
        }
    }
    Ok(())
}

fn oracle_quick(seed: u64) -> Done {
    let start = Instant::now();
    let mut report = Report::default();
    known_streams(2, &mut report)?;
    let known = report.steps();
    let mut next = seed;
    let random = Instant::now();
    let keepers = keepers::all();
    while random.elapsed() < QUICK_RANDOM {
        cases::try_random(&keepers, next, &mut report)?;
        next = next.wrapping_add(1);
    }
    println!(
        "{}: {known} directed and exhaustive steps, {} random from seed {seed}, no difference, {} s",
        keepers::names(),
        report.steps() - known,
        start.elapsed().as_secs()
    );
    Ok(())
}

/// Directed streams of the map, which need no oracle.
fn known_maps(report: &mut Report) -> Done {
    let keepers = keepers::all();
    for script in map_streams::scripts() {
        maps::try_script(&keepers, &script, report)?;
    }
    Ok(())
}

fn maps_quick(seed: u64) -> Done {
    let mut report = Report::default();
    known_maps(&mut report)?;
    let known = report.map_calls();
    let mut next = seed;
    let start = Instant::now();
    while start.elapsed() < QUICK_MAPS {
        maps::try_random(&keepers::all(), next, &mut report)?;
        next = next.wrapping_add(1);
    }
    let on = keepers::CORE.map_or("reference", |_| "reference and core");
    println!(
        "maps: {known} directed calls, {} random from seed {seed} on {on}, no difference, and each run \
is rule 5's",
        report.map_calls() - known
    );
    Ok(())
}

fn say_without_core() {
    if keepers::CORE.is_none() {
        println!("{NO_CORE}");
    }
}

/// All that the gate runs.
pub fn quick(seed: Option<u64>) -> Done {
    let seed = seed.unwrap_or_else(fresh_seed);
    say_without_core();
    if SOURCE_FOUND {
        oracle_quick(seed).map_err(|fault| format!("oracle, seed {seed}: {fault}"))?;
        for keeper in keepers::all() {
            differences::shown(keeper)?;
        }
        println!("differences: D-1 to D-4 and three overflows are as docs/DIFFERENCES.md says");
    } else {
        println!("{NO_SOURCE}");
    }
    maps_quick(seed).map_err(|fault| format!("maps: {fault}"))?;
    let lines = fixed_list()?;
    let streams = list::count(&lines);
    for (keeper, name) in keepers::all().into_iter().zip(["reference", "core"]) {
        let calls = keeper_play::replay(keeper, &lines).map_err(|(line, fault)| {
            format!("fixed list, {name}: {}: {fault}", lines[line].write())
        })?;
        println!("fixed list: {streams} streams, {calls} calls replayed on the {name}");
    }
    hostile_steps(10_000, seed)?;
    let variants = keeper_variants::all();
    let untold = tell::untold(&variants, &lines);
    println!(
        "variants: {} of {} told apart by the fixed list",
        variants.len() - untold.len(),
        variants.len()
    );
    match untold.first() {
        Some(variant) => Err(format!("a variant is not told apart: {}", variant.fault)),
        None => Ok(()),
    }
}

/// Random streams of the map, until its calls have their share.
fn maps_share(next: &mut u64, report: &mut Report) -> Done {
    while report.map_calls() * STEPS_A_MAP_CALL < report.steps() {
        maps::try_random(&keepers::all(), *next, report)?;
        *next = next.wrapping_add(1);
    }
    Ok(())
}

/// A long run, with a progress line on standard error and the report on standard output.
pub fn run(steps: u64, seed: Option<u64>) -> Done {
    if !SOURCE_FOUND {
        return Err(NO_SOURCE.to_string());
    }
    say_without_core();
    let seed = seed.unwrap_or_else(fresh_seed);
    let start = Instant::now();
    let keepers = keepers::all();
    let mut report = Report::default();
    let mut next = seed;
    let mut next_map = seed;
    let mut fault = known_streams(3, &mut report)
        .and_then(|()| known_maps(&mut report))
        .and_then(|()| maps_share(&mut next_map, &mut report));
    let mut shown = 0;
    while fault.is_ok() && report.steps() < steps {
        fault = cases::try_random(&keepers, next, &mut report)
            .and_then(|()| maps_share(&mut next_map, &mut report));
        next = next.wrapping_add(1);
        if report.steps() / 100_000 > shown {
            shown = report.steps() / 100_000;
            eprint!(
                "\r{} of {steps} steps, {} s",
                report.steps(),
                start.elapsed().as_secs()
            );
        }
    }
    eprintln!();
    report.differences += u64::from(fault.is_err());
    let seconds = start.elapsed().as_secs();
    println!(
        "{}, seeds {seed} to {}, of maps to {}, {seconds} s\n\n{report}",
        keepers::names(),
        next.wrapping_sub(1),
        next_map.wrapping_sub(1)
    );
    fault
}

/// The table, by the fixed list.
pub fn variants() -> Done {
    let table = tell::table(&keeper_variants::all(), &fixed_list()?);
    println!("| place | fault | streams | first |\n|---|---|---|---|");
    for told in &table {
        println!(
            "| {} | {} | {} | {} |",
            told.variant.place,
            told.variant.fault,
            told.streams,
            told.stream.as_deref().unwrap_or("none")
        );
    }
    let told = table.iter().filter(|told| told.streams > 0).count();
    println!("\n{told} of {} told apart", table.len());
    if told < table.len() {
        return Err("a variant is not told apart".to_string());
    }
    Ok(())
}

fn hostile_steps(steps: u64, seed: u64) -> Done {
    let mut report = Report::default();
    let keeper = keepers::on_bytes();
    hostiles::known(keeper, &mut report).map_err(|fault| format!("hostile: {fault}"))?;
    let known = report.steps();
    let mut next = seed;
    while report.steps() < steps {
        hostiles::random(keeper, next, &mut report).map_err(|fault| format!("hostile: {fault}"))?;
        next = next.wrapping_add(1);
    }
    let on = keepers::CORE.map_or("the reference", |_| "core and reference");
    println!(
        "hostile: {known} calls with a known number, {} damaged from seed {seed}, on {on}",
        report.steps() - known
    );
    hostile_maps_calls(steps / STEPS_A_MAP_CALL, seed).map_err(|fault| format!("hostile: {fault}"))
}

fn hostile_maps_calls(calls: u64, seed: u64) -> Done {
    let mut report = Report::default();
    let keeper = keepers::on_bytes();
    for script in map_streams::scripts() {
        hostile_maps::known(keeper, &script, &mut report)?;
    }
    let known = report.map_calls();
    let mut next = seed;
    while report.map_calls() < calls + known {
        hostile_maps::random(keeper, next, &mut report)?;
        next = next.wrapping_add(1);
    }
    let on = keepers::CORE.map_or("the reference", |_| "core and reference");
    println!(
        "hostile: {known} calls of the map with a known number, {} on damaged maps from seed {seed}, on {on}",
        report.map_calls() - known
    );
    Ok(())
}

/// Damaged calls.
pub fn hostile(steps: u64, seed: Option<u64>) -> Done {
    say_without_core();
    hostile_steps(steps, seed.unwrap_or_else(fresh_seed))
}

/// Makes the fixed list anew.
pub fn make_list() -> Done {
    if !SOURCE_FOUND {
        return Err(NO_SOURCE.to_string());
    }
    let lines = list::make(&keeper_variants::all(), 600)?;
    print!("{}", list::write(&lines));
    Ok(())
}

/// Only a build without overflow checks lets the Rust wrap its count of sends.
pub fn wrap() -> Done {
    let mut report = Report::default();
    let named = |script: &keeper_streams::Script| script.name.starts_with("sends counted");
    for script in directed::scripts().iter().filter(|script| named(script)) {
        cases::try_script(&keepers::all(), script, &mut report)?;
    }
    println!("{report}");
    Ok(())
}
