//! Damaged calls and random bytes: a keeper against the reference, byte for byte.

use crate::report::Report;
use keeper_play::{aged, foretold, lent_whole, Player, FILL};
use keeper_reference::{image, Reference, PLAIN};
use keeper_streams::damage::{damage, several, Damaged};
use keeper_streams::noise::{self, noise};
use keeper_streams::random::Random;
use keeper_streams::rng::Rng;
use keeper_streams::text::Line;
use keeper_streams::{hostile, Opening};
use keeper_values::{Answer, Keeper, Mode};

/// What a call left: the answer and both areas.
type Left = (Answer, Vec<u8>, Vec<u8>);

fn run(keeper: &dyn Keeper, damaged: &Damaged, image: &[u8]) -> Left {
    let mut state = damaged.state(image);
    let mut commands = vec![FILL; damaged.commands_length];
    let answer = keeper.step(&mut state, &mut commands, &damaged.arguments);
    (answer, state, commands)
}

/// The forecast of a call: the reference's, and what the step shows with a whole command area.
fn forecast(keeper: &dyn Keeper, damaged: &Damaged, image: &[u8]) -> Result<(), String> {
    let state = damaged.state(image);
    let forecast = keeper.forecast(&state, &damaged.arguments);
    let reference = Reference::plain().forecast(&state, &damaged.arguments);
    if forecast != reference || state != damaged.state(image) {
        return Err(format!("{forecast:?} against {reference:?}"));
    }
    let (answer, written) = lent_whole(keeper, &state, &damaged.arguments);
    foretold(forecast, &answer, &written)
}

/// The mean age on a damaged area, at clocks around and beyond the call's.
fn mean_age(keeper: &dyn Keeper, damaged: &Damaged, image: &[u8]) -> Result<(), String> {
    let state = damaged.state(image);
    let clock = damaged.arguments.clock;
    let clocks = [0, clock.saturating_sub(1), clock, u64::MAX];
    aged(keeper, &state, &clocks)?;
    for clock in clocks {
        let (mean, reference) = (
            keeper.mean_age(&state, clock),
            Reference::plain().mean_age(&state, clock),
        );
        if mean != reference || state != damaged.state(image) {
            return Err(format!("{mean:?} against {reference:?}"));
        }
    }
    Ok(())
}

/// One call on both; what a refusal or a finished step owes is looked at besides.
pub fn compare(keeper: &dyn Keeper, damaged: &Damaged, image: &[u8]) -> Result<Answer, String> {
    let reference = run(&Reference::plain(), damaged, image);
    let (answer, state, commands) = run(keeper, damaged, image);
    if (answer, &state, &commands) != (reference.0, &reference.1, &reference.2) {
        return Err(format!("{answer:?} against {:?}", reference.0));
    }
    if answer.number > 11 {
        return Err(format!("number {}", answer.number));
    }
    if answer.number == 0 {
        if image::read(&PLAIN, &state).is_none() {
            return Err("a finished step left a malformed image".to_string());
        }
    } else if answer != Answer::refused(answer.number)
        || state != damaged.state(image)
        || commands.iter().any(|byte| *byte != FILL)
    {
        return Err(format!("refused as {}, and not only that", answer.number));
    }
    forecast(keeper, damaged, image)?;
    mean_age(keeper, damaged, image)?;
    for flag in [0, 1, 2, 255] {
        let ask = |keeper: &dyn Keeper| {
            let state = damaged.state(image);
            let mut commands = vec![FILL; damaged.commands_length];
            let answer = keeper.question(&state, &mut commands, flag);
            (answer, state, commands)
        };
        if ask(keeper) != ask(&Reference::plain()) {
            return Err(format!("question {flag}"));
        }
    }
    Ok(answer)
}

/// The bad inputs with a known number.
pub fn known(keeper: &dyn Keeper, report: &mut Report) -> Result<(), String> {
    for case in hostile::cases() {
        let answer = compare(keeper, &case.damaged, &image::write(&case.state))
            .map_err(|fault| format!("{}: {fault}", case.name))?;
        report.step(case.state.mode, case.damaged.arguments.kind, answer.number);
        if answer.number != case.number {
            let (number, name) = (answer.number, &case.name);
            return Err(format!("{name}: number {number}, not {}", case.number));
        }
    }
    Ok(())
}

/// An opening of any numbers on an area of any length.
fn opening(keeper: &dyn Keeper, rng: &mut Rng) -> Result<(), String> {
    let call = noise::opening(rng);
    let area = noise::bytes(rng, call.length);
    let open = |keeper: &dyn Keeper| {
        let mut area = area.clone();
        let number = keeper.open(&mut area, call.settings, call.clock, call.height);
        (number, area)
    };
    if open(keeper) == open(&Reference::plain()) {
        return Ok(());
    }
    Err(format!("opening of {} bytes", call.length))
}

/// The image with the first version's number: what the first version wrote, if each type is below 256.
fn version_1(image: &[u8]) -> Vec<u8> {
    let mut image = image.to_vec();
    image[3..5].copy_from_slice(&[0, 1]);
    image
}

/// A random stream with damaged copies of each of its calls; in some streams on images of version 1.
pub fn random(keeper: &dyn Keeper, seed: u64, report: &mut Report) -> Result<(), String> {
    let reference = Reference::plain();
    let mut random = Random::new(seed);
    let mut rng = Rng::new(!seed);
    let mut player = Player::new(&reference);
    let opening_line = match random.opening() {
        Opening::Put(state) => Line::Put(state.clone()),
        Opening::Open {
            settings,
            clock,
            height,
        } => Line::Open {
            settings: *settings,
            clock: *clock,
            height: *height,
        },
    };
    player.play(&opening_line)?;
    opening(keeper, &mut rng).map_err(|fault| format!("seed {seed}: {fault}"))?;
    report.streams += 1;
    let older = rng.once_in(4);
    for step in 0..random.length.min(40) {
        let state = player.read()?;
        if state.mode == Mode::Ended {
            break;
        }
        let arguments = random.next(&state).to_arguments();
        let kinds = [damage, damage, several, noise, noise];
        let image = match older {
            true => version_1(player.image()),
            false => player.image().to_vec(),
        };
        for (index, damaged) in kinds.iter().enumerate() {
            let damaged = damaged(&mut rng, &image, &arguments);
            let answer = compare(keeper, &damaged, &image)
                .map_err(|fault| format!("seed {seed}, step {step}, damage {index}: {fault}"))?;
            report.step(state.mode, damaged.arguments.kind, answer.number);
        }
        player.play(&Line::Step(Box::new(arguments), vec![]))?;
    }
    Ok(())
}
