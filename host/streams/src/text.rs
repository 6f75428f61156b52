//! The text form of a stream, one line a call and its answer below (`fixed/README.md` says it for a reader).

use crate::damage::Damaged;
use keeper_values::numbers::widths;
use keeper_values::{Answer, Arguments, Command, Id, MapCall, Mode, Request, Settings, State};
use keeper_values::{COMMAND_BYTES, STATE_BYTES};

/// One line.
#[derive(Debug, Clone, PartialEq, Eq)]
pub enum Line {
    Stream(String),
    Open {
        settings: Settings,
        clock: u64,
        height: u32,
    },
    Put(Box<State>),
    /// Lengths of the areas, for the next call only.
    Areas(usize, usize),
    /// Bytes over the state area, for the next call only.
    Poke(usize, Vec<u8>),
    Step(Box<Arguments>, Vec<usize>),
    Ask(u8),
    /// The mean age at this clock.
    Age(u64),
    /// The stream's map is these bytes.
    Map(Vec<u8>),
    MapCall(MapCall),
    /// How many heights of the map can be passed.
    Passable,
    Answer(Vec<u64>),
    Command(Command),
    Pairs(Vec<u8>),
    /// The settings are not said again: those given are zero.
    State(Box<State>),
    /// The map's bytes after a finished call.
    MapAfter(Vec<u8>),
}

/// The line that is one word.
const PASSABLE: &str = "passable";

/// Lower-case hex; `-` for no bytes.
pub fn hex(bytes: &[u8]) -> String {
    const DIGITS: &[u8; 16] = b"0123456789abcdef";
    if bytes.is_empty() {
        return "-".to_string();
    }
    let digit = |value: u8| char::from(DIGITS[usize::from(value)]);
    bytes
        .iter()
        .flat_map(|byte| [digit(byte >> 4), digit(byte & 15)])
        .collect()
}

fn unhex(word: &str) -> Option<Vec<u8>> {
    if word == "-" {
        return Some(Vec::new());
    }
    let digits = word.as_bytes();
    let value = |digit: u8| char::from(digit).to_digit(16);
    let byte = |pair: &[u8]| Some((value(pair[0])? * 16 + value(pair[1])?) as u8);
    let whole = digits.len().is_multiple_of(2);
    whole.then(|| digits.chunks_exact(2).map(byte).collect())?
}

fn fields(state: &State) -> String {
    let sync_peer = match state.sync_peer {
        Some(peer) => peer.to_string(),
        None => "-".to_string(),
    };
    let stalled: Vec<u8> = state.stalled.iter().flat_map(|p| p.to_be_bytes()).collect();
    let mut pending = Vec::new();
    for (id, request) in &state.pending {
        pending.extend(id);
        pending.extend(request.peer.to_be_bytes());
        pending.extend(request.type_id.to_be_bytes());
        pending.extend(request.stamp.to_be_bytes());
        pending.extend(request.checks.to_be_bytes());
    }
    format!(
        "{} {sync_peer} {} {} {} {} {} {} {} {} {} {} {}",
        state.mode.number(),
        state.last_clock,
        state.last_progress,
        state.last_send,
        state.sends_counted,
        state.downloaded,
        state.known_tip,
        u8::from(state.progress_mark),
        u8::from(state.entry_mark),
        hex(&stalled),
        hex(&state.evicted.concat()),
        hex(&pending),
    )
}

fn settings_words(settings: &Settings) -> String {
    format!(
        "{} {} {} {}",
        settings.timeout,
        settings.max_checks,
        settings.min_sync_send_interval,
        settings.stall_timeout
    )
}

impl Line {
    /// The modifier lines that come before a damaged call.
    pub fn modifiers(damaged: &Damaged) -> Vec<Self> {
        let mut lines = Vec::new();
        let lengths = (damaged.state_length, damaged.commands_length);
        if lengths != (STATE_BYTES, COMMAND_BYTES) {
            lines.push(Line::Areas(lengths.0, lengths.1));
        }
        if let Some((offset, bytes)) = &damaged.poke {
            lines.push(Line::Poke(*offset, bytes.clone()));
        }
        lines
    }

    pub fn answer(answer: Answer) -> Self {
        Line::numbers(&answer.numbers())
    }

    /// An answer of numbers of 32 bits.
    pub fn numbers(numbers: &[u32]) -> Self {
        Line::Answer(numbers.iter().copied().map(u64::from).collect())
    }

    pub fn write(&self) -> String {
        match self {
            Line::Stream(name) => format!("stream {name}"),
            Line::Open {
                settings,
                clock,
                height,
            } => format!("open {clock} {height} {}", settings_words(settings)),
            Line::Put(state) => {
                format!("put {} {}", settings_words(&state.settings), fields(state))
            }
            Line::Areas(state, commands) => format!("areas {state} {commands}"),
            Line::Poke(offset, bytes) => format!("poke {offset} {}", hex(bytes)),
            Line::Step(call, fails) => write_step(call, fails),
            Line::Ask(flag) => format!("ask {flag}"),
            Line::Age(clock) => format!("age {clock}"),
            Line::Map(bytes) => format!("map {}", hex(bytes)),
            Line::MapCall(call) => write_map_call(call),
            Line::Passable => PASSABLE.to_string(),
            Line::Answer(numbers) => {
                let words: Vec<String> = numbers.iter().map(u64::to_string).collect();
                format!("= {}", words.join(" "))
            }
            Line::Command(command) => format!(
                "> {} {} {} {} {} {}",
                command.kind,
                command.type_id,
                command.batch,
                command.peer,
                command.ids.len(),
                hex(&command.ids.concat())
            ),
            Line::Pairs(bytes) => format!("? {}", hex(bytes)),
            Line::State(state) => format!(". {}", fields(state)),
            Line::MapAfter(bytes) => format!("% {}", hex(bytes)),
        }
    }

    pub fn read(line: &str) -> Option<Self> {
        if line == PASSABLE {
            return Some(Line::Passable);
        }
        let (head, rest) = line.split_once(' ')?;
        let mut words = Words(rest.split(' '));
        let read = match head {
            "stream" => return Some(Line::Stream(rest.to_string())),
            "open" => {
                let (clock, height) = (words.number()?, words.number()?);
                Line::Open {
                    clock,
                    height,
                    settings: words.settings()?,
                }
            }
            "put" => {
                let settings = words.settings()?;
                Line::Put(Box::new(words.state(settings)?))
            }
            "areas" => Line::Areas(words.number()?, words.number()?),
            "poke" => Line::Poke(words.number()?, words.bytes()?),
            "step" => words.step()?,
            "ask" => Line::Ask(words.number()?),
            "age" => Line::Age(words.number()?),
            "map" => Line::Map(words.bytes()?),
            "fill" => Line::MapCall(MapCall::Fill {
                downloaded: words.number()?,
                chain: words.number()?,
                view: words.bytes()?,
            }),
            "arrived" => Line::MapCall(MapCall::Arrived {
                height: words.number()?,
                place: words.number()?,
            }),
            "pruned" => Line::MapCall(MapCall::Pruned {
                height: words.number()?,
                place: words.number()?,
            }),
            "slide" => Line::MapCall(MapCall::Slide {
                downloaded: words.number()?,
                view: words.bytes()?,
            }),
            "=" => Line::Answer(
                words
                    .0
                    .by_ref()
                    .map(|w| w.parse().ok())
                    .collect::<Option<_>>()?,
            ),
            ">" => words.command()?,
            "?" => Line::Pairs(words.bytes()?),
            "." => {
                let zero = Settings {
                    timeout: 0,
                    max_checks: 0,
                    min_sync_send_interval: 0,
                    stall_timeout: 0,
                };
                Line::State(Box::new(words.state(zero)?))
            }
            "%" => Line::MapAfter(words.bytes()?),
            _ => return None,
        };
        words.0.next().is_none().then_some(read)
    }
}

fn write_map_call(call: &MapCall) -> String {
    let name = call.name();
    match call {
        MapCall::Fill {
            downloaded,
            chain,
            view,
        } => format!("{name} {downloaded} {chain} {}", hex(view)),
        MapCall::Arrived { height, place } | MapCall::Pruned { height, place } => {
            format!("{name} {height} {place}")
        }
        MapCall::Slide { downloaded, view } => format!("{name} {downloaded} {}", hex(view)),
    }
}

fn write_step(call: &Arguments, fails: &[usize]) -> String {
    let fails: Vec<String> = fails.iter().map(usize::to_string).collect();
    let fails = if fails.is_empty() {
        "-".to_string()
    } else {
        fails.join(",")
    };
    format!(
        "step {} {} {} {} {} {} {} {} {} {} {} {} {} {} {} {fails}",
        call.kind,
        call.clock,
        call.gate,
        call.height,
        hex(&call.peers),
        hex(&call.stored),
        hex(&call.view),
        call.peer,
        call.type_id,
        call.fork,
        call.parsed,
        call.has_tip,
        call.tip,
        hex(&call.ids),
        hex(&call.continuation),
    )
}

struct Words<'a>(std::str::Split<'a, char>);

impl Words<'_> {
    fn number<N: std::str::FromStr>(&mut self) -> Option<N> {
        self.0.next()?.parse().ok()
    }

    fn bytes(&mut self) -> Option<Vec<u8>> {
        unhex(self.0.next()?)
    }

    fn ids(&mut self) -> Option<Vec<Id>> {
        let bytes = self.bytes()?;
        let ids = bytes.chunks(widths::ID).map(|id| id.try_into().ok());
        ids.collect()
    }

    fn settings(&mut self) -> Option<Settings> {
        Some(Settings {
            timeout: self.number()?,
            max_checks: self.number()?,
            min_sync_send_interval: self.number()?,
            stall_timeout: self.number()?,
        })
    }

    fn state(&mut self, settings: Settings) -> Option<State> {
        let mode = Mode::from_number(self.number()?)?;
        let sync_peer = match self.0.next()? {
            "-" => None,
            peer => Some(peer.parse().ok()?),
        };
        let mut state = State {
            mode,
            sync_peer,
            settings,
            last_clock: self.number()?,
            last_progress: self.number()?,
            last_send: self.number()?,
            sends_counted: self.number()?,
            downloaded: self.number()?,
            known_tip: self.number()?,
            progress_mark: self.number::<u8>()? == 1,
            entry_mark: self.number::<u8>()? == 1,
            stalled: Vec::new(),
            pending: Default::default(),
            evicted: Vec::new(),
        };
        for peer in self.bytes()?.chunks(widths::PEER) {
            state
                .stalled
                .push(u64::from_be_bytes(peer.try_into().ok()?));
        }
        state.evicted = self.ids()?;
        for record in self.bytes()?.chunks(widths::RECORD) {
            let record: [u8; widths::RECORD] = record.try_into().ok()?;
            let request = Request {
                peer: u64::from_be_bytes(record[32..40].try_into().ok()?),
                type_id: u16::from_be_bytes([record[40], record[41]]),
                stamp: u64::from_be_bytes(record[42..50].try_into().ok()?),
                checks: u32::from_be_bytes(record[50..].try_into().ok()?),
            };
            state.pending.insert(record[..32].try_into().ok()?, request);
        }
        Some(state)
    }

    fn step(&mut self) -> Option<Line> {
        let call = Arguments {
            kind: self.number()?,
            clock: self.number()?,
            gate: self.number()?,
            height: self.number()?,
            peers: self.bytes()?,
            stored: self.bytes()?,
            view: self.bytes()?,
            peer: self.number()?,
            type_id: self.number()?,
            fork: self.number()?,
            parsed: self.number()?,
            has_tip: self.number()?,
            tip: self.number()?,
            ids: self.bytes()?,
            continuation: self.bytes()?,
        };
        let fails = match self.0.next()? {
            "-" => Vec::new(),
            words => words
                .split(',')
                .map(|w| w.parse().ok())
                .collect::<Option<_>>()?,
        };
        Some(Line::Step(Box::new(call), fails))
    }

    fn command(&mut self) -> Option<Line> {
        let (kind, type_id) = (self.number()?, self.number()?);
        let (batch, peer) = (self.number()?, self.number()?);
        let count: usize = self.number()?;
        let ids = self.ids()?;
        let command = Command {
            kind,
            type_id,
            batch,
            peer,
            ids,
        };
        (command.ids.len() == count).then_some(Line::Command(command))
    }
}

#[cfg(test)]
mod tests {
    use super::*;

    fn written(text: &str, line: Line) {
        assert_eq!(line.write(), text);
        assert_eq!(Line::read(text), Some(line));
    }

    #[test]
    fn map_lines() {
        written("map -", Line::Map(Vec::new()));
        written("map 45444d", Line::Map(b"EDM".to_vec()));
        written("passable", Line::Passable);
        written("% 01ff", Line::MapAfter(vec![1, 255]));
        let fill = MapCall::Fill {
            downloaded: 400,
            chain: 402,
            view: vec![0, 0, 1, 0x91],
        };
        written("fill 400 402 00000191", Line::MapCall(fill));
        let (height, place) = (u32::MAX, 255);
        let arrived = MapCall::Arrived { height, place };
        written("arrived 4294967295 255", Line::MapCall(arrived));
        let (height, place) = (0, 2);
        let pruned = MapCall::Pruned { height, place };
        written("pruned 0 2", Line::MapCall(pruned));
        let slide = MapCall::Slide {
            downloaded: 7,
            view: Vec::new(),
        };
        written("slide 7 -", Line::MapCall(slide));
    }

    #[test]
    fn no_map_lines() {
        for text in [
            "map",
            "map 0",
            "passable ",
            "passable 1",
            "fill 1 2",
            "fill 1 2 - -",
            "arrived 1",
            "arrived 4294967296 0",
            "pruned 1 256",
            "slide 1",
            "%",
        ] {
            assert_eq!(Line::read(text), None, "{text}");
        }
    }
}
