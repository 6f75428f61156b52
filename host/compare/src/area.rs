//! A keeper's two areas and a call on them, with what every call owes whatever it answers.

use keeper_play::{ages_told, foretold, FILL};
use keeper_reference::{image, PLAIN};
use keeper_streams::Opening;
use keeper_values::{Answer, Arguments, Keeper, State, COMMAND_BYTES, STATE_BYTES};

pub struct Areas {
    pub state: Vec<u8>,
    pub commands: Vec<u8>,
}

impl Areas {
    pub fn new(keeper: &dyn Keeper, opening: &Opening) -> Result<Self, String> {
        let mut areas = Self {
            state: vec![FILL; STATE_BYTES],
            commands: vec![FILL; COMMAND_BYTES],
        };
        match opening {
            Opening::Open {
                settings,
                clock,
                height,
            } => {
                let number = keeper.open(&mut areas.state, *settings, *clock, *height);
                if number != 0 {
                    return Err(format!("opening refused as {number}"));
                }
            }
            Opening::Put(state) => areas.state = image::write(state),
        }
        Ok(areas)
    }

    /// What the state area says.
    pub fn read(&self) -> Result<State, String> {
        image::read(&PLAIN, &self.state).ok_or_else(|| "malformed state area".to_string())
    }

    /// Asks for a step's forecast and runs it: it has to show what was foretold. A refusal has to leave both areas as they
    /// were, a finished step the bytes after its commands.
    pub fn step(&mut self, keeper: &dyn Keeper, arguments: &Arguments) -> Result<Answer, String> {
        let before = self.state.clone();
        let forecast = keeper.forecast(&self.state, arguments);
        if self.state != before {
            return Err("a forecast changed the state area".to_string());
        }
        let answer = keeper.step(&mut self.state, &mut self.commands, arguments);
        let length = answer.length as usize;
        if answer.number != 0 {
            if answer != Answer::refused(answer.number) {
                return Err(format!("a refusal with more than its number: {answer:?}"));
            }
            if self.state != before {
                return Err("a refusal changed the state area".to_string());
            }
        }
        self.unwritten_beyond(length)?;
        foretold(forecast, &answer, &self.commands[..length])?;
        Ok(answer)
    }

    /// Asks for the mean age of what the area holds, this state.
    pub fn mean_age(&self, keeper: &dyn Keeper, state: &State, clock: u64) -> Result<(), String> {
        let before = self.state.clone();
        ages_told(keeper, &self.state, state, clock)?;
        match self.state == before {
            true => Ok(()),
            false => Err("a mean age changed the state area".to_string()),
        }
    }

    /// Asks a question: the number and the length.
    pub fn question(&mut self, keeper: &dyn Keeper, flag: u8) -> Result<(u32, u32), String> {
        let answer = keeper.question(&self.state, &mut self.commands, flag);
        self.unwritten_beyond(answer.1 as usize)?;
        Ok(answer)
    }

    fn unwritten_beyond(&self, length: usize) -> Result<(), String> {
        // No early exit: this runs over 64 KiB in each step.
        let unwritten = self.commands.get(length..).unwrap_or_default();
        let changed = unwritten.iter().fold(0, |any, byte| any | (byte ^ FILL));
        if length > self.commands.len() || changed != 0 {
            return Err(format!("wrote beyond its {length} command bytes"));
        }
        Ok(())
    }

    /// The bytes of the last step's commands, taken out of the area.
    pub fn take_commands(&mut self, length: u32) -> Vec<u8> {
        let written = self.commands[..length as usize].to_vec();
        self.commands[..length as usize].fill(FILL);
        written
    }
}
