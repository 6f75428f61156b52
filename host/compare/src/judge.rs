//! The oracle against a keeper, step by step, and other keepers against that one.

use crate::area::Areas;
use crate::beside::Beside;
use crate::report::Report;
use keeper_oracle::{holds, takes, Observed, Oracle, Reason, Sent, Verdict, SOURCE_FOUND};
use keeper_reference::image;
use keeper_streams::Opening;
use keeper_values::numbers::{commands, kinds, limits, types};
use keeper_values::{read_commands, Answer, Call, Command, Id, Keeper, Mode, State, TypeId};
use std::collections::BTreeSet;

/// A keeper under the oracle's eyes, and others that have to leave the same bytes.
pub struct Trial<'k> {
    keeper: &'k dyn Keeper,
    areas: Areas,
    beside: Vec<Beside<'k>>,
    /// None while a type above 255 is pending, which the Rust can't hold (D-4): the keepers go on by themselves.
    oracle: Option<Oracle>,
    pub state: State,
}

fn same<T: PartialEq + std::fmt::Debug>(what: &str, rust: &T, keeper: &T) -> Result<(), String> {
    if rust == keeper {
        return Ok(());
    }
    Err(format!("{what}\n  Rust   {rust:?}\n  keeper {keeper:?}"))
}

/// The order of the stalled peers is not the Rust's to say.
fn unordered(state: &State) -> State {
    let mut state = state.clone();
    state.stalled.sort_unstable();
    state
}

/// What the shell tries to send: after a failed send the rest of that batch is dropped. An entry's send is no matter of
/// `fails`: the next step says how it went.
fn shell_sends(commands: Vec<Command>, fails: &[usize], entry: bool) -> Vec<Sent> {
    let mut sends: Vec<Sent> = Vec::new();
    for command in commands {
        let dropped = sends
            .last()
            .is_some_and(|last| last.failed && last.command.batch == command.batch);
        if !dropped {
            let failed = !entry && fails.contains(&sends.len());
            sends.push(Sent { command, failed });
        }
    }
    sends
}

/// F-4: every request of a batch carries 400 ids but the last, which carries 1 to 400. Of those behind a failed send the Rust
/// says nothing.
fn whole_runs(written: &[Command]) -> Result<(), String> {
    for batch in written.chunk_by(|one, next| one.batch == next.batch) {
        let counts: Vec<usize> = batch.iter().map(|command| command.ids.len()).collect();
        let whole = counts.split_last().is_some_and(|(last, others)| {
            (1..=limits::RUN).contains(last) && others.iter().all(|count| *count == limits::RUN)
        });
        if batch[0].kind == commands::REQUEST && !whole {
            return Err(format!("a batch of requests with {counts:?} ids"));
        }
    }
    Ok(())
}

/// The refusals that the Rust has no say in, for a call that is well formed as bytes.
fn refused_before_the_rust(state: &State, call: &Call) -> Option<u32> {
    let busy = state.mode == Mode::Syncing || state.mode == Mode::Synced;
    let of_mode = match call.kind {
        kinds::START => state.mode == Mode::New,
        kinds::PICK => state.mode == Mode::Seeking,
        kinds::SECTION_TICK => state.mode == Mode::Synced,
        kinds::SEND_FAILURE => state.entry_mark,
        kinds::END_OF_STREAM => busy || state.mode == Mode::Seeking,
        0 => false,
        kind => kind <= kinds::LAST && busy,
    };
    if call.clock < state.last_clock {
        Some(4)
    } else if !of_mode {
        Some(5)
    } else if call.kind == kinds::NEEDED && call.ids.len() != 1 {
        Some(6)
    } else {
        None
    }
}

/// F-5, in the Rust's place: what an empty header list of another peer than the sync peer leaves. Nothing is asked or sent, and
/// only the last clock and the entry mark are those behind any step.
fn passed_over(before: &State, call: &Call) -> (Answer, State) {
    let answer = Answer {
        pending: before.pending.len() as u32,
        evicted: before.evicted.len() as u32,
        ..Answer::default()
    };
    let state = State {
        last_clock: call.clock,
        entry_mark: false,
        ..before.clone()
    };
    (answer, state)
}

/// Whether one of the Rust's sums overflows in this step (docs/DIFFERENCES.md). Where the keeper refuses the step, the
/// height that rule 4 started from is not known.
fn overflows(before: &State, after: &State, call: &Call, refused: bool) -> bool {
    let our_sum = call.kind == kinds::SYNC_INFO && call.height == u32::MAX;
    let from = if refused {
        call.height
    } else {
        after.downloaded
    };
    let window_sum = from > u32::MAX - 192 && (refused || call.height > from);
    our_sum || window_sum || before.sends_counted == u32::MAX
}

impl<'k> Trial<'k> {
    /// `None` if the Rust is not at hand.
    pub fn new(keepers: &[&'k dyn Keeper], opening: &Opening) -> Result<Option<Self>, String> {
        let Some((&keeper, others)) = keepers.split_first() else {
            return Err("no keeper".to_string());
        };
        let oracle = match opening {
            Opening::Open {
                settings,
                clock,
                height,
            } => Oracle::open(*settings, *clock, *height),
            Opening::Put(state) => Oracle::put(state),
        };
        let areas = Areas::new(keeper, opening)?;
        let state = areas.read()?;
        if let Some(oracle) = &oracle {
            same("opened state", oracle.state(), &unordered(&state))?;
        } else if !SOURCE_FOUND || holds(&state) {
            return Ok(None);
        }
        let beside = |other: &&'k dyn Keeper| Beside::new(*other, opening, &areas.state);
        let beside = others.iter().map(beside).collect::<Result<_, _>>()?;
        Ok(Some(Self {
            keeper,
            areas,
            beside,
            oracle,
            state,
        }))
    }

    /// Runs one call on all sides and compares everything.
    pub fn step(&mut self, call: &Call, report: &mut Report) -> Result<(), String> {
        let before = self.state.clone();
        let arguments = call.to_arguments();
        self.mean_age(call.clock)?;
        let answer = self.areas.step(self.keeper, &arguments)?;
        let written = self.areas.take_commands(answer.length);
        for beside in &mut self.beside {
            beside.step(&arguments, &answer, &written, &self.areas.state)?;
        }
        self.state = self.areas.read()?;
        report.step(before.mode, call.kind, answer.number);
        if let Some(number) = refused_before_the_rust(&before, call) {
            return same("refusal", &Answer::refused(number), &answer);
        }
        let verdict = match &mut self.oracle {
            Some(oracle) => oracle.step(call),
            None => Verdict::OutOfDomain(Reason::WideTypes),
        };
        match verdict {
            Verdict::Finished(observed) => {
                self.finished(call, &answer, &written, &observed)?;
                report.agreed(call, &self.state, &observed.sends, answer.outcome);
                if call.kind == kinds::CHECK {
                    report.agreed_check(&before, call, &self.state);
                }
            }
            Verdict::Refused(number) => same("refusal", &Answer::refused(number), &answer)?,
            Verdict::Lost(surprise) => return Err(format!("the oracle is lost: {surprise}")),
            Verdict::OutOfDomain(reason) => {
                if reason == Reason::Panic
                    && !overflows(&before, &self.state, call, answer.number != 0)
                {
                    return Err("the Rust panics, and no sum overflows".to_string());
                }
                if reason == Reason::EmptyHeaders {
                    let left = (answer, self.state.clone());
                    if passed_over(&before, call) != left {
                        return Err(format!("F-5: headers of another peer\n  keeper {left:?}"));
                    }
                }
                if reason == Reason::WideTypes && holds(&before) && takes(call) {
                    return Err("every type is below 256, and the Rust has no say".to_string());
                }
                if answer.number == 0 {
                    let commands = read_commands(&written).ok_or("the commands end within one")?;
                    whole_runs(&commands)?;
                    self.one_image()?;
                }
                report.out_of_domain(reason);
                self.oracle = Oracle::put(&self.state);
                if self.oracle.is_none() && holds(&self.state) {
                    return Err("the oracle can't be put back".to_string());
                }
            }
        }
        Ok(())
    }

    /// Asks all keepers for the mean age, at the step's clock where that is refused, else so late that the ages' sum has more
    /// than 64 bits.
    fn mean_age(&self, clock: u64) -> Result<(), String> {
        let clock = match clock < self.state.last_clock {
            true => clock,
            false => u64::MAX - clock % 1_024,
        };
        self.areas.mean_age(self.keeper, &self.state, clock)?;
        let mut others = self.beside.iter();
        others.try_for_each(|beside| beside.mean_age(&self.state, clock))
    }

    fn finished(
        &self,
        call: &Call,
        answer: &Answer,
        written: &[u8],
        observed: &Observed,
    ) -> Result<(), String> {
        let expected = Answer {
            number: 0,
            outcome: observed.outcome,
            retried: observed.retried,
            fresh: observed.fresh,
            abandoned: observed.abandoned,
            forgotten: observed.forgotten,
            pending: observed.state.pending.len() as u32,
            evicted: observed.state.evicted.len() as u32,
            length: answer.length,
        };
        same("answer", &expected, answer)?;
        same("state", &observed.state, &unordered(&self.state))?;
        let commands = read_commands(written).ok_or("the commands end within one")?;
        let whole = whole_runs(&commands);
        let sends = shell_sends(commands, &call.fails, observed.state.entry_mark);
        same("sends", &observed.sends, &sends)?;
        whole?;
        self.one_image()
    }

    fn one_image(&self) -> Result<(), String> {
        if image::write(&self.state) != self.areas.state {
            return Err("the state area is not the one image of its state".to_string());
        }
        Ok(())
    }

    /// Asks both questions and holds the pairs against what the Rust holds, or what the keeper does where the Rust can't.
    pub fn question(&mut self, report: &mut Report) -> Result<(), String> {
        let oracle = self.oracle.as_ref();
        let state = oracle.map_or(&self.state, |oracle| oracle.state()).clone();
        let evicted = state.evicted.iter().map(|id| (types::HEADER, *id));
        let owed = state.pending.iter().filter(|(_, request)| {
            Some(request.peer) == state.sync_peer && request.type_id != types::TRANSACTION
        });
        let mut expected: [BTreeSet<(TypeId, Id)>; 2] = [
            evicted.collect(),
            owed.map(|(id, request)| (request.type_id, *id)).collect(),
        ];
        if state.sync_peer.is_none() {
            expected = Default::default();
        }
        for (flag, expected) in expected.iter().enumerate() {
            let (number, length) = self.areas.question(self.keeper, flag as u8)?;
            let written = self.areas.take_commands(length);
            for beside in &mut self.beside {
                beside.question(flag as u8, number, &written)?;
            }
            let expected: Vec<u8> = expected
                .iter()
                .flat_map(|(type_id, id)| type_id.to_be_bytes().into_iter().chain(*id))
                .collect();
            same("question", &(0, expected), &(number, written))?;
            report.questions += 1;
        }
        Ok(())
    }
}
