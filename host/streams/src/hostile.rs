//! One bad input at a time, at each edge that a refusal has, with the number that it has to give.

mod areas;
mod calls;

use crate::build::{id, ids, place, syncing, CASES};
use crate::damage::Damaged;
use crate::text::Line;
use keeper_values::numbers::kinds;
use keeper_values::{Call, Mode, Request, Row, State, View};

/// A call on a state put in, and its number.
#[derive(Debug, Clone)]
pub struct Hostile {
    pub name: String,
    pub state: State,
    pub damaged: Damaged,
    pub number: u32,
}

impl Hostile {
    /// As lines of a stream; damaged areas are asked a question and the mean age too.
    pub fn lines(&self) -> Vec<Line> {
        let mut lines = vec![
            Line::Stream(self.name.clone()),
            Line::Put(Box::new(self.state.clone())),
        ];
        let modifiers = Line::modifiers(&self.damaged);
        if !modifiers.is_empty() {
            lines.extend(modifiers.clone());
            lines.push(Line::Ask(1));
            lines.extend(modifiers.clone());
            lines.push(Line::Age(self.damaged.arguments.clock));
        }
        lines.extend(modifiers);
        lines.push(Line::Step(Box::new(self.damaged.arguments.clone()), vec![]));
        lines
    }
}

fn held() -> State {
    let request = |peer, type_id, stamp, checks| Request {
        peer,
        type_id,
        stamp,
        checks,
    };
    State {
        mode: Mode::Synced,
        pending: [
            (id(1), request(4, 102, 50, 1)),
            (id(2), request(5, 2, 90, 0)),
            (id(3), request(4, 101, 100, 0)),
        ]
        .into(),
        evicted: vec![id(9), id(1), id(9)],
        stalled: vec![7, 0, 3],
        last_progress: 100,
        last_send: 60,
        ..syncing(CASES, 100)
    }
}

fn good() -> Call {
    Call {
        kind: kinds::OTHER_MESSAGE,
        clock: 100,
        gate: true,
        ids: ids(1, 1),
        continuation: ids(5, 2),
        stored: [(101, id(1)), (102, id(0)), (102, id(7))].into(),
        peers: vec![4, 5],
        view: View {
            first: 11,
            rows: vec![
                Row::Absent,
                Row::Present(vec![place(102, 5, false)]),
                Row::Present(vec![
                    place(102, 6, true),
                    place(104, 7, true),
                    place(108, 8, false),
                ]),
            ],
        },
        ..Call::default()
    }
}

struct Cases(Vec<Hostile>);

impl Cases {
    fn add(&mut self, name: &str, number: u32, change: impl FnOnce(&mut State, &mut Damaged)) {
        let mut state = held();
        let mut damaged = Damaged::none(&good().to_arguments());
        change(&mut state, &mut damaged);
        self.0.push(Hostile {
            name: format!("hostile: {name}"),
            state,
            damaged,
            number,
        });
    }

    fn poke(&mut self, name: &str, number: u32, offset: usize, bytes: &[u8]) {
        self.add(name, number, |_, damaged| {
            damaged.poke = Some((offset, bytes.to_vec()));
        });
    }

    fn state(&mut self, name: &str, number: u32, change: impl FnOnce(&mut State)) {
        self.add(name, number, |state, _| change(state));
    }

    fn lengths(&mut self, state: usize, commands: usize, number: u32) {
        self.add(
            &format!("areas of {state} and {commands}"),
            number,
            |_, damaged| {
                damaged.state_length = state;
                damaged.commands_length = commands;
            },
        );
    }
}

/// All of them.
pub fn cases() -> Vec<Hostile> {
    let mut cases = Cases(Vec::new());
    areas::areas(&mut cases);
    areas::versions(&mut cases);
    areas::image(&mut cases);
    calls::calls(&mut cases);
    calls::lists(&mut cases);
    calls::views(&mut cases);
    calls::results(&mut cases);
    cases.0
}
