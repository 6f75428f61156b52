//! F-3: what a step would need. The step on a copy of the state, with a command area of its own; its figures alone are kept.

use crate::{entries, Rules};
use keeper_values::numbers::widths::{HEADER, ID};
use keeper_values::{Answer, Arguments, Forecast, COMMAND_BYTES};

/// "the number of commands": each is passed over by the count of its ids, the last four bytes of its header.
pub fn count_commands(written: &[u8]) -> u32 {
    let mut commands = 0;
    let mut rest = written;
    while let Some((header, after)) = rest.split_first_chunk::<HEADER>() {
        let [.., a, b, c, d] = *header;
        let ids = u32::from_be_bytes([a, b, c, d]) as usize;
        // Only a faulty variant says more than there are.
        rest = after.get(ID * ids..).unwrap_or_default();
        commands += 1;
    }
    commands
}

/// "Every figure is the one that the step itself then shows [..] with a refusal all other figures are 0"
pub fn figures(rules: &Rules, answer: &Answer, written: &[u8]) -> Forecast {
    Forecast::of(answer, (rules.count_commands)(written))
}

/// The step "lent 65,536 command bytes", on a copy: what it answers and writes.
pub fn tried(rules: &Rules, state: &[u8], call: &Arguments) -> (Answer, Vec<u8>) {
    let mut state = state.to_vec();
    let mut commands = vec![0; COMMAND_BYTES];
    let answer = entries::step(rules, &mut state, &mut commands, call);
    commands.truncate(answer.length as usize);
    (answer, commands)
}

pub fn forecast(rules: &Rules, state: &[u8], call: &Arguments) -> Forecast {
    let (answer, written) = tried(rules, state, call);
    figures(rules, &answer, &written)
}
