//! A stream that is answered wrongly, made short: calls dropped, lists shortened, numbers lowered, ids and peers
//! renamed, as long as some answer is wrong. Which one may change on the way. A step that the core finishes is not
//! traded for one that it refuses, nor one refusal for another.
//!
//! Big bites come first, and what was found until the deadline is given.

mod lists;
mod numbers;
mod rename;

use crate::count::count;
use crate::progress::Progress;
use crate::pupil::Pupil;
use crate::stream::{Call, Stream};
use crate::trial::{play, Fault};
use keeper_core::Core;
use keeper_values::numbers::kinds;
use keeper_values::{Arguments, Keeper, COMMAND_BYTES, STATE_BYTES};
use std::time::Instant;

/// Calls played in vain, in a row, after which small changes of a sort are given up. Short streams never come to it.
const IN_VAIN: usize = 50_000;

/// Into how many parts a rough shrinking parts a stream or a list, to drop one.
const ROUGH: usize = 16;

/// Whether a fault will do for another: of its sort (a difference, another writing or a break), and at a call that the
/// core finishes or refuses with the same number.
fn serves(fault: &Fault, other: &Fault) -> bool {
    let sort = |fault: &Fault| std::mem::discriminant(&fault.wrong);
    let refusal = fault.refusal();
    sort(fault) == sort(other) && (refusal.is_none() || refusal == other.refusal())
}

/// Whether the core refuses a call of this stream with this number.
fn refuses(stream: &Stream, number: u32) -> bool {
    let (mut state, mut commands) = (vec![0; STATE_BYTES], vec![0; COMMAND_BYTES]);
    let opening = &stream.opening;
    Core.open(&mut state, opening.settings, opening.clock, opening.height);
    stream.calls.iter().any(|call| {
        number
            == match call {
                Call::Step(step) => Core.step(&mut state, &mut commands, step).number,
                Call::Ask(flag) => Core.question(&state, &mut commands, *flag).0,
            }
    })
}

pub struct Shrinker<'p> {
    pub pupil: &'p mut Pupil,
    pub progress: &'p mut Progress,
    /// The shortest stream so far, cut after its wrong answer.
    pub best: Stream,
    pub fault: Fault,
    pub deadline: Instant,
    pub tries: u64,
    /// Calls of the last small changes that did not do.
    pub in_vain: usize,
}

impl Shrinker<'_> {
    pub fn is_over(&self) -> bool {
        Instant::now() >= self.deadline
    }

    /// Big bites alone, to learn how short it gets.
    pub fn roughly(&mut self) -> Result<(), String> {
        loop {
            let before = self.best.length();
            self.drop_calls(ROUGH)?;
            self.all_at_once()?;
            self.shorten_lists(ROUGH)?;
            if self.best.length() == before || self.is_over() {
                return Ok(());
            }
        }
    }

    /// To the last call, entry and number.
    pub fn wholly(&mut self) -> Result<(), String> {
        loop {
            let before = self.best.clone();
            self.all_at_once()?;
            for pass in [
                |shrinker: &mut Self| shrinker.drop_calls(usize::MAX),
                Self::reset_unread,
                |shrinker: &mut Self| shrinker.shorten_lists(usize::MAX),
                Self::lower_numbers,
            ] {
                self.in_vain = 0;
                pass(self)?;
            }
            if self.best == before || self.is_over() {
                return Ok(());
            }
        }
    }

    /// Whether there is no time for more small changes, or no use in them.
    fn gives_up(&self) -> bool {
        self.is_over() || self.in_vain >= IN_VAIN
    }

    /// Tries a simpler stream; one with a fault that will do becomes the best, cut after it.
    fn keeps(&mut self, candidate: Stream) -> Result<bool, String> {
        if candidate == self.best || self.is_over() {
            return Ok(false);
        }
        self.tries += 1;
        let (calls, tries) = (self.best.calls.len() as u64, self.tries);
        self.progress.now_and_then(|| {
            let (calls, tries) = (count(calls, "call"), count(tries, "stream"));
            format!("making it short: {calls}, {tries} tried")
        });
        let Some(fault) = play(self.pupil, &candidate, Some(self.deadline))? else {
            return Ok(false);
        };
        if !serves(&fault, &self.fault) {
            return Ok(false);
        }
        self.best = candidate.cut(fault.at);
        self.fault = fault;
        Ok(true)
    }

    /// The same for one of many small changes. Where the core refuses the call, the pupil is asked only if the core still
    /// does in the candidate: a limit takes hundreds of calls, and hardly one of them can be spared.
    fn keeps_small(&mut self, candidate: Stream) -> Result<bool, String> {
        if candidate == self.best || self.gives_up() {
            return Ok(false);
        }
        let calls = candidate.calls.len();
        let kept = match self.fault.refusal() {
            Some(number) if !refuses(&candidate, number) => false,
            _ => self.keeps(candidate)?,
        };
        self.in_vain = if kept { 0 } else { self.in_vain + calls };
        Ok(kept)
    }

    /// Runs of calls, long ones first, from the end; the shortest are this part of the stream.
    fn drop_calls(&mut self, parts: usize) -> Result<(), String> {
        let mut run = self.best.calls.len().div_ceil(2);
        let least = (self.best.calls.len() / parts).max(1);
        while run >= least && !self.gives_up() {
            let mut end = self.best.calls.len();
            while end > 0 {
                let start = end.saturating_sub(run);
                let mut candidate = self.best.clone();
                candidate.calls.drain(start..end);
                if parts == ROUGH {
                    self.keeps(candidate)?;
                } else {
                    self.keeps_small(candidate)?;
                }
                end = start.min(self.best.calls.len());
            }
            run /= 2;
        }
        Ok(())
    }

    /// The step at this index, changed.
    fn changed(&self, index: usize, change: impl FnOnce(&mut Arguments)) -> Stream {
        let mut candidate = self.best.clone();
        if let Some(Call::Step(step)) = candidate.calls.get_mut(index) {
            change(step);
        }
        candidate
    }

    /// Every step, changed.
    fn all_changed(&self, change: impl Fn(&mut Arguments)) -> Stream {
        let mut candidate = self.best.clone();
        for call in &mut candidate.calls {
            if let Call::Step(step) = call {
                change(step);
            }
        }
        candidate
    }

    /// What often goes for all calls together.
    fn all_at_once(&mut self) -> Result<(), String> {
        self.keeps(self.all_changed(open_gate))?;
        self.keeps(self.all_changed(forget_unread))?;
        self.keeps(self.all_changed(lists::empty_all))?;
        self.numbers_at_once()?;
        self.keeps(rename::ids(&self.best))?;
        self.keeps(rename::peers(&self.best))?;
        Ok(())
    }

    fn reset_unread(&mut self) -> Result<(), String> {
        let mut index = 0;
        while index < self.best.calls.len() && !self.gives_up() {
            self.keeps_small(self.changed(index, open_gate))?;
            self.keeps_small(self.changed(index, forget_unread))?;
            index += 1;
        }
        Ok(())
    }
}

fn open_gate(step: &mut Arguments) {
    step.gate = 1;
}

/// Nothing where a step does not look.
fn forget_unread(step: &mut Arguments) {
    if !matches!(step.kind, kinds::NEEDED | kinds::ANNOUNCED) {
        step.type_id = 0;
    }
    if !matches!(
        step.kind,
        kinds::ANNOUNCED | kinds::SYNC_INFO | kinds::LOST_PEER
    ) {
        step.peer = 0;
    }
}
