//! Streams as lines: record a keeper's answers below each call, or hold a keeper against recorded ones.

mod ages;

pub use ages::{aged, ages_told};
use keeper_reference::{image, map, PLAIN};
use keeper_streams::damage::Damaged;
use keeper_streams::text::Line;
use keeper_values::{read_commands, Answer, Arguments, Forecast, Keeper, MapCall, Settings, State};
use keeper_values::{COMMAND_BYTES, MAP_BYTES, STATE_BYTES};
use std::panic::{catch_unwind, set_hook, take_hook, AssertUnwindSafe};

/// Lies in the command area before each call, so that a byte written too much shows.
pub const FILL: u8 = 0xa5;

/// A state line does not repeat the settings.
const NO_SETTINGS: Settings = Settings {
    timeout: 0,
    max_checks: 0,
    min_sync_send_interval: 0,
    stall_timeout: 0,
};

/// Reads lines, without remarks and empty ones; the number of a line that is none is the error.
pub fn read(text: &str) -> Result<Vec<Line>, usize> {
    let lines = text.lines().enumerate();
    let meant = lines.filter(|(_, line)| !line.is_empty() && !line.starts_with('#'));
    meant
        .map(|(index, line)| Line::read(line).ok_or(index + 1))
        .collect()
}

/// Whether a forecast was right: by what it answered and wrote, the step has shown the same.
pub fn foretold(forecast: Forecast, answer: &Answer, written: &[u8]) -> Result<(), String> {
    let commands = read_commands(written).ok_or("the commands end within one")?;
    let shown = Forecast::of(answer, commands.len() as u32);
    if forecast == shown {
        return Ok(());
    }
    Err(format!(
        "forecast {forecast:?}, and the step shows {shown:?}"
    ))
}

/// What a step answers and writes with a whole command area, on a copy of the state.
pub fn lent_whole(keeper: &dyn Keeper, state: &[u8], call: &Arguments) -> (Answer, Vec<u8>) {
    let mut state = state.to_vec();
    let mut commands = vec![FILL; COMMAND_BYTES];
    let answer = keeper.step(&mut state, &mut commands, call);
    commands.truncate(answer.length as usize);
    (answer, commands)
}

fn state_line(mut state: State) -> Line {
    state.settings = NO_SETTINGS;
    Line::State(Box::new(state))
}

/// A keeper, and the state area and the map of a stream.
pub struct Player<'k> {
    keeper: &'k dyn Keeper,
    state: Vec<u8>,
    map: Vec<u8>,
    lengths: (usize, usize),
    poke: Option<(usize, Vec<u8>)>,
}

impl<'k> Player<'k> {
    pub fn new(keeper: &'k dyn Keeper) -> Self {
        Self {
            keeper,
            state: vec![FILL; STATE_BYTES],
            map: vec![0; MAP_BYTES],
            lengths: (STATE_BYTES, COMMAND_BYTES),
            poke: None,
        }
    }

    pub fn image(&self) -> &[u8] {
        &self.state
    }

    pub fn read(&self) -> Result<State, String> {
        image::read(&PLAIN, &self.state).ok_or_else(|| "malformed state area".to_string())
    }

    /// Plays one line and gives the lines that answer it.
    pub fn play(&mut self, line: &Line) -> Result<Vec<Line>, String> {
        match line {
            Line::Stream(_) => *self = Self::new(self.keeper),
            Line::Put(state) => self.state = image::write(state),
            Line::Areas(state, commands) => self.lengths = (*state, *commands),
            Line::Poke(offset, bytes) => self.poke = Some((*offset, bytes.clone())),
            Line::Open {
                settings,
                clock,
                height,
            } => {
                let mut area = self.lent(&Arguments::default()).0;
                let number = self.keeper.open(&mut area, *settings, *clock, *height);
                self.keep(area, number)?;
                let mut lines = vec![Line::numbers(&[number])];
                if number == 0 {
                    lines.push(self.whole_state()?);
                }
                return Ok(lines);
            }
            Line::Step(call, _) => return self.step(call),
            Line::Ask(flag) => return self.ask(*flag),
            Line::Age(clock) => return self.age(*clock),
            Line::Map(bytes) => self.map.clone_from(bytes),
            Line::MapCall(call) => return self.map_call(call),
            Line::Passable => return self.passable(),
            Line::Answer(_)
            | Line::Command(_)
            | Line::Pairs(_)
            | Line::State(_)
            | Line::MapAfter(_) => {
                return Err(format!("an answer without a call: {}", line.write()));
            }
        }
        Ok(Vec::new())
    }

    /// The areas of the next call; what changed them for this call alone is used up.
    fn lent(&mut self, call: &Arguments) -> (Vec<u8>, Vec<u8>) {
        let lengths = std::mem::replace(&mut self.lengths, (STATE_BYTES, COMMAND_BYTES));
        let damaged = Damaged {
            arguments: call.clone(),
            state_length: lengths.0,
            commands_length: lengths.1,
            poke: self.poke.take(),
        };
        (damaged.state(&self.state), vec![FILL; lengths.1])
    }

    /// A finished call's area is the stream's from now on; a refused one's goes with its damage.
    fn keep(&mut self, area: Vec<u8>, number: u32) -> Result<(), String> {
        if number == 0 {
            if area.len() != STATE_BYTES {
                return Err("finished on an area of another length".to_string());
            }
            self.state = area;
        }
        Ok(())
    }

    fn step(&mut self, call: &Arguments) -> Result<Vec<Line>, String> {
        let (mut area, mut commands) = self.lent(call);
        let before = area.clone();
        let forecast = self.keeper.forecast(&area, call);
        aged(self.keeper, &area, &[call.clock, u64::MAX])?;
        if area != before {
            return Err("a forecast or a mean age changed the state area".to_string());
        }
        let answer = self.keeper.step(&mut area, &mut commands, call);
        let written = commands.get(..answer.length as usize).unwrap_or_default();
        let after = commands.get(answer.length as usize..).unwrap_or_default();
        if written.len() != answer.length as usize || after.iter().any(|byte| *byte != FILL) {
            return Err(format!("wrote beyond its {} command bytes", answer.length));
        }
        if commands.len() < COMMAND_BYTES {
            // The forecast knows of no area that could be too short.
            let (answer, written) = lent_whole(self.keeper, &before, call);
            foretold(forecast, &answer, &written)?;
        } else {
            foretold(forecast, &answer, written)?;
        }
        let mut lines = vec![Line::answer(answer)];
        if answer.number != 0 {
            if answer != Answer::refused(answer.number) || area != before {
                return Err(format!("refused as {}, and not only that", answer.number));
            }
            return Ok(lines);
        }
        let commands = read_commands(written).ok_or("the commands end within one")?;
        lines.extend(commands.into_iter().map(Line::Command));
        self.keep(area, 0)?;
        lines.push(self.whole_state()?);
        Ok(lines)
    }

    /// What a finished call left: the one image of a state.
    fn whole_state(&self) -> Result<Line, String> {
        let state = self.read()?;
        if image::write(&state) != self.state {
            return Err("the state area is not the one image of its state".to_string());
        }
        Ok(state_line(state))
    }

    fn ask(&mut self, flag: u8) -> Result<Vec<Line>, String> {
        let (area, mut commands) = self.lent(&Arguments::default());
        let (number, length) = self.keeper.question(&area, &mut commands, flag);
        let pairs = commands.get(..length as usize).unwrap_or_default().to_vec();
        let after = commands.get(length as usize..).unwrap_or_default();
        if pairs.len() != length as usize || after.iter().any(|byte| *byte != FILL) {
            return Err(format!("wrote beyond its {length} command bytes"));
        }
        Ok(vec![Line::numbers(&[number, length]), Line::Pairs(pairs)])
    }

    fn age(&mut self, clock: u64) -> Result<Vec<Line>, String> {
        let (area, _) = self.lent(&Arguments::default());
        let before = area.clone();
        let mean = self.keeper.mean_age(&area, clock);
        if area != before {
            return Err("a mean age changed the state area".to_string());
        }
        let [number, count] = [mean.number, mean.count].map(u64::from);
        let numbers = vec![number, count, mean.quotient, mean.remainder];
        Ok(vec![Line::Answer(numbers)])
    }

    fn map_call(&mut self, call: &MapCall) -> Result<Vec<Line>, String> {
        let before = self.map.clone();
        let number = self.keeper.map_call(&mut self.map, call);
        let mut lines = vec![Line::numbers(&[number])];
        if number != 0 {
            if self.map != before {
                return Err(format!("refused as {number}, and the map is changed"));
            }
            return Ok(lines);
        }
        if map::read(&PLAIN, &self.map).is_err() {
            return Err("a finished call left a malformed map".to_string());
        }
        lines.push(Line::MapAfter(self.map.clone()));
        Ok(lines)
    }

    fn passable(&mut self) -> Result<Vec<Line>, String> {
        let before = self.map.clone();
        let (number, heights) = self.keeper.map_passable(&self.map);
        if self.map != before {
            return Err("a question changed the map".to_string());
        }
        Ok(vec![Line::numbers(&[number, heights])])
    }
}

/// The calls with this keeper's answers.
pub fn record(keeper: &dyn Keeper, calls: &[Line]) -> Result<Vec<Line>, String> {
    let mut player = Player::new(keeper);
    let mut lines = Vec::new();
    for call in calls {
        let answers = player.play(call)?;
        lines.push(call.clone());
        lines.extend(answers);
    }
    Ok(lines)
}

/// Holds a keeper against recorded answers; gives the calls played, or the line and what differs there.
pub fn replay(keeper: &dyn Keeper, lines: &[Line]) -> Result<u64, (usize, String)> {
    let mut player = Player::new(keeper);
    let mut calls = 0;
    let mut at = 0;
    while at < lines.len() {
        let answers = player.play(&lines[at]).map_err(|fault| (at, fault))?;
        calls += u64::from(!answers.is_empty());
        at += 1;
        for answer in answers {
            if lines.get(at) != Some(&answer) {
                return Err((at, format!("the keeper says {}", answer.write())));
            }
            at += 1;
        }
    }
    Ok(calls)
}

/// Whether a keeper departs from the recorded answers. A panic is a departure: the plain rules never panic.
pub fn told_apart(keeper: &dyn Keeper, lines: &[Line]) -> bool {
    let printing = take_hook();
    set_hook(Box::new(|_| {}));
    let outcome = catch_unwind(AssertUnwindSafe(|| replay(keeper, lines)));
    set_hook(printing);
    !matches!(outcome, Ok(Ok(_)))
}

#[cfg(test)]
mod tests {
    use super::*;
    use keeper_reference::Reference;
    use keeper_values::{MeanAge, Row, View};

    fn stream() -> Vec<Line> {
        let view = View {
            first: 6,
            rows: vec![Row::Present(Vec::new())],
        };
        let fill = |downloaded| MapCall::Fill {
            downloaded,
            chain: 6,
            view: view.to_bytes(),
        };
        vec![
            Line::Stream("a map".to_string()),
            Line::Passable,
            Line::MapCall(fill(4)),
            Line::MapCall(fill(5)),
            Line::Passable,
            Line::MapCall(MapCall::Arrived {
                height: 6,
                place: 0,
            }),
            Line::Passable,
            Line::Map(vec![0; 3]),
            Line::MapCall(fill(5)),
            Line::Stream("another".to_string()),
            Line::Passable,
            Line::MapCall(fill(5)),
        ]
    }

    #[test]
    fn a_map_is_kept_as_the_lines_say() {
        let lines = record(&Reference::plain(), &stream()).expect("can be played");
        let answers = lines.iter().filter_map(|line| match line {
            Line::Answer(numbers) => Some(numbers.as_slice()),
            _ => None,
        });
        let expected: [&[u64]; 9] = [
            &[12, 0],
            &[9],
            &[0],
            &[0, 1],
            &[12],
            &[0, 1],
            &[12],
            &[12, 0],
            &[0],
        ];
        assert_eq!(answers.collect::<Vec<_>>(), expected);
        let mut maps = lines.iter().filter_map(|line| match line {
            Line::MapAfter(map) => Some(map),
            _ => None,
        });
        let map = maps.next().expect("a finished fill");
        assert_eq!((map.len(), map[7], map[11], map[64]), (MAP_BYTES, 5, 6, 0));
        assert_eq!(maps.collect::<Vec<_>>(), [map]);
        assert_eq!(replay(&Reference::plain(), &lines), Ok(9));
    }

    /// Answers as the reference and writes into the map all the same.
    struct Careless;

    impl Keeper for Careless {
        fn open(&self, state: &mut [u8], settings: Settings, clock: u64, height: u32) -> u32 {
            Reference::plain().open(state, settings, clock, height)
        }

        fn step(&self, state: &mut [u8], commands: &mut [u8], arguments: &Arguments) -> Answer {
            Reference::plain().step(state, commands, arguments)
        }

        fn forecast(&self, state: &[u8], arguments: &Arguments) -> Forecast {
            Reference::plain().forecast(state, arguments)
        }

        fn mean_age(&self, state: &[u8], clock: u64) -> MeanAge {
            Reference::plain().mean_age(state, clock)
        }

        fn question(&self, state: &[u8], commands: &mut [u8], flag: u8) -> (u32, u32) {
            Reference::plain().question(state, commands, flag)
        }

        fn map_call(&self, map: &mut [u8], call: &MapCall) -> u32 {
            let number = Reference::plain().map_call(map, call);
            map[300] = 1;
            number
        }

        fn map_passable(&self, map: &[u8]) -> (u32, u32) {
            Reference::plain().map_passable(map)
        }
    }

    #[test]
    fn a_refusal_that_writes_is_told() {
        let refused = record(&Careless, &stream()[..3]);
        assert_eq!(
            refused,
            Err("refused as 9, and the map is changed".to_string())
        );
        let finished = record(&Careless, &stream()[3..4]);
        assert_eq!(
            finished,
            Err("a finished call left a malformed map".to_string())
        );
        let lines = record(&Reference::plain(), &stream()).expect("can be played");
        assert!(told_apart(&Careless, &lines));
    }
}
