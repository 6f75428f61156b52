//! Damaged maps and calls of any numbers and bytes: a keeper against the reference, byte for byte.

use crate::report::Report;
use keeper_reference::{map, Reference, PLAIN};
use keeper_streams::maps::{any_call, damaged, MapEvent, MapScript, RandomMap};
use keeper_streams::rng::Rng;
use keeper_values::{Keeper, MapCall, MAP_BYTES};

/// What a call left: its number and the map, and what can be passed then.
type Left = (u32, Vec<u8>, (u32, u32));

fn run(keeper: &dyn Keeper, area: &[u8], call: &MapCall) -> Left {
    let mut area = area.to_vec();
    let number = keeper.map_call(&mut area, call);
    let passable = keeper.map_passable(&area);
    (number, area, passable)
}

/// One call on both, and the question before it and after it; what every call owes is looked at besides.
pub fn compare(
    keeper: &dyn Keeper,
    area: &[u8],
    call: &MapCall,
    report: &mut Report,
) -> Result<u32, String> {
    let reference = Reference::plain();
    let asked = keeper.map_passable(area);
    if asked != reference.map_passable(area) {
        return Err(format!("passable: {asked:?}"));
    }
    let left = run(keeper, area, call);
    let expected = run(&reference, area, call);
    if left != expected {
        return Err(format!("number {} against {}", left.0, expected.0));
    }
    let (number, after, passable) = left;
    match number {
        0 if after.len() != MAP_BYTES || map::read(&PLAIN, &after).is_err() => {
            return Err("a finished call left a malformed map".to_string());
        }
        0 | 8 | 9 | 12 => {}
        _ => return Err(format!("number {number}")),
    }
    if number != 0 && (after != area || passable != asked) {
        return Err(format!("refused as {number}, and not only that"));
    }
    report.map_call(call, number, passable.1);
    Ok(number)
}

/// The calls of a directed stream, each with its number.
pub fn known(keeper: &dyn Keeper, script: &MapScript, report: &mut Report) -> Result<(), String> {
    let mut area = vec![0; MAP_BYTES];
    for event in &script.events {
        match event {
            MapEvent::Area(bytes) => area.clone_from(bytes),
            MapEvent::Call(call, number) => {
                let given = compare(keeper, &area, call, report)
                    .map_err(|fault| format!("{}: {fault}", script.name))?;
                if given != *number {
                    let name = &script.name;
                    return Err(format!("{name}: number {given}, not {number}"));
                }
                keeper.map_call(&mut area, call);
            }
            MapEvent::Passable(..) => {}
        }
    }
    Ok(())
}

/// Damaged copies of a random stream's maps, each under a call of any numbers and bytes.
pub fn random(keeper: &dyn Keeper, seed: u64, report: &mut Report) -> Result<(), String> {
    let reference = Reference::plain();
    let mut random = RandomMap::new(seed);
    let mut rng = Rng::new(!seed);
    let mut area = vec![0; MAP_BYTES];
    report.streams += 1;
    for index in 0..random.length {
        let good = random.next(&area);
        for time in 0..4 {
            let lent = damaged(&mut rng, &area);
            let call = any_call(&mut rng, &lent, &good);
            compare(keeper, &lent, &call, report).map_err(|fault| {
                let name = call.name();
                format!("map, seed {seed}, call {index}, damage {time}, {name}: {fault}")
            })?;
        }
        reference.map_call(&mut area, &good);
    }
    Ok(())
}
