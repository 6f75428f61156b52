//! Where streams come from, as lines and as trials under the oracle.

use crate::judge::Trial;
use crate::report::Report;
use keeper_play::Player;
use keeper_reference::Reference;
use keeper_streams::damage::damage;
use keeper_streams::random::Random;
use keeper_streams::rng::Rng;
use keeper_streams::text::Line;
use keeper_streams::{Opening, Script};
use keeper_values::{Keeper, Mode};

fn opening_line(opening: &Opening) -> Line {
    match opening {
        Opening::Open {
            settings,
            clock,
            height,
        } => Line::Open {
            settings: *settings,
            clock: *clock,
            height: *height,
        },
        Opening::Put(state) => Line::Put(state.clone()),
    }
}

/// A directed stream, with both questions after its last step, and the mean age then and at the end of time.
pub fn script_lines(script: &Script) -> Vec<Line> {
    let mut lines = vec![
        Line::Stream(script.name.clone()),
        opening_line(&script.opening),
    ];
    for call in &script.calls {
        lines.push(Line::Step(
            Box::new(call.to_arguments()),
            call.fails.clone(),
        ));
    }
    lines.extend([Line::Ask(0), Line::Ask(1)]);
    let last = script.calls.last().map_or(0, |call| call.clock);
    lines.extend([Line::Age(last), Line::Age(u64::MAX)]);
    lines
}

/// A random stream as the reference meets it, cut after some steps; with damaged copies before some calls.
pub fn random_lines(seed: u64, most: usize, damaged: bool) -> Result<Vec<Line>, String> {
    let reference = Reference::plain();
    let mut random = Random::new(seed);
    let mut rng = Rng::new(!seed);
    let mut player = Player::new(&reference);
    let mut lines = Vec::new();
    let mut push = |player: &mut Player, line: Line| -> Result<(), String> {
        player.play(&line)?;
        lines.push(line);
        Ok(())
    };
    push(&mut player, Line::Stream(format!("random {seed}")))?;
    push(&mut player, opening_line(random.opening()))?;
    for step in 0..random.length.min(most) {
        let state = player.read()?;
        if state.mode == Mode::Ended {
            break;
        }
        let call = random.next(&state);
        let arguments = call.to_arguments();
        if damaged && rng.once_in(2) {
            let damaged = damage(&mut rng, player.image(), &arguments);
            for line in Line::modifiers(&damaged) {
                push(&mut player, line)?;
            }
            push(&mut player, Line::Step(Box::new(damaged.arguments), vec![]))?;
        }
        let clock = call.clock;
        push(&mut player, Line::Step(Box::new(arguments), call.fails))?;
        if step % 8 == 3 {
            push(&mut player, Line::Ask((step / 8 % 2) as u8))?;
            push(&mut player, Line::Age(clock))?;
        }
    }
    Ok(lines)
}

/// A directed stream under the oracle.
pub fn try_script(
    keepers: &[&dyn Keeper],
    script: &Script,
    report: &mut Report,
) -> Result<(), String> {
    let named = |fault: String| format!("{}: {fault}", script.name);
    let Some(mut trial) = Trial::new(keepers, &script.opening).map_err(named)? else {
        return Err(named("the oracle can't be put there".to_string()));
    };
    report.streams += 1;
    for (step, call) in script.calls.iter().enumerate() {
        trial
            .step(call, report)
            .and_then(|()| trial.question(report))
            .map_err(|fault| format!("{}, step {step}: {fault}", script.name))?;
    }
    Ok(())
}

/// A random stream under the oracle.
pub fn try_random(keepers: &[&dyn Keeper], seed: u64, report: &mut Report) -> Result<(), String> {
    let mut random = Random::new(seed);
    let Some(mut trial) = Trial::new(keepers, random.opening())? else {
        return Err(format!("seed {seed}: the oracle can't be put there"));
    };
    report.streams += 1;
    let mut after_end = 0;
    for step in 0..random.length {
        after_end += u32::from(trial.state.mode == Mode::Ended);
        if after_end > 3 {
            break;
        }
        let call = random.next(&trial.state);
        trial
            .step(&call, report)
            .map_err(|fault| format!("seed {seed}, step {step}, kind {}: {fault}", call.kind))?;
        if step % 16 == 7 {
            trial
                .question(report)
                .map_err(|fault| format!("seed {seed}, after step {step}: {fault}"))?;
        }
    }
    Ok(())
}
