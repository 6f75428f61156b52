//! Numbers made lower: clocks, heights and settings.

use super::Shrinker;
use crate::stream::{Call, Stream, VIEW_HEAD};
use keeper_values::Settings;
use std::collections::{BTreeMap, BTreeSet};

/// Changes every number of a stream, in a fixed order. Beside it the one below which it makes no sense: for a clock the
/// clock before it.
fn change_numbers(stream: &mut Stream, mut change: impl FnMut(u64, u64) -> u64) {
    let opening = &mut stream.opening;
    let settings = &mut opening.settings;
    opening.clock = change(0, opening.clock);
    let mut last = opening.clock;
    for number in [
        &mut opening.height,
        &mut settings.timeout,
        &mut settings.max_checks,
        &mut settings.min_sync_send_interval,
        &mut settings.stall_timeout,
    ] {
        *number = change(0, u64::from(*number)) as u32;
    }
    for call in &mut stream.calls {
        let Call::Step(step) = call else { continue };
        step.clock = change(last, step.clock);
        last = step.clock;
        for number in [&mut step.height, &mut step.fork, &mut step.tip] {
            *number = change(0, u64::from(*number)) as u32;
        }
        for flag in [&mut step.has_tip, &mut step.parsed] {
            *flag = change(0, u64::from(*flag)) as u8;
        }
        change_first(&mut step.view, |first| change(0, u64::from(first)) as u32);
    }
}

fn change_first(view: &mut [u8], change: impl FnOnce(u32) -> u32) {
    if let Some(bytes) = view.first_chunk_mut::<VIEW_HEAD>() {
        *bytes = change(u32::from_be_bytes(*bytes)).to_be_bytes();
    }
}

/// A number, and the one below which it makes no sense, if it is not below that already.
fn number(stream: &Stream, slot: usize) -> Option<(u64, u64)> {
    let mut found = None;
    let mut at = 0;
    change_numbers(&mut stream.clone(), |least, number| {
        if at == slot {
            found = Some((if least <= number { least } else { 0 }, number));
        }
        at += 1;
        number
    });
    found
}

fn with_number(stream: &Stream, slot: usize, value: u64) -> Stream {
    let mut changed = stream.clone();
    let mut at = 0;
    change_numbers(&mut changed, |_, number| {
        at += 1;
        if at == slot + 1 {
            value
        } else {
            number
        }
    });
    changed
}

fn without_settings(mut stream: Stream) -> Stream {
    stream.opening.settings = Settings {
        timeout: 0,
        max_checks: 0,
        min_sync_send_interval: 0,
        stall_timeout: 0,
    };
    stream
}

fn all_zero(stream: &Stream) -> Stream {
    let mut changed = stream.clone();
    change_numbers(&mut changed, |_, _| 0);
    changed
}

/// Each clock by how many different ones are below it.
fn ranked_clocks(stream: &Stream) -> Stream {
    let mut ranked = stream.clone();
    let steps = ranked.calls.iter_mut().filter_map(|call| match call {
        Call::Step(step) => Some(&mut step.clock),
        Call::Ask(_) => None,
    });
    let mut clocks: Vec<&mut u64> = steps.chain([&mut ranked.opening.clock]).collect();
    let sorted: BTreeSet<u64> = clocks.iter().map(|clock| **clock).collect();
    let ranks: BTreeMap<u64, u64> = sorted.into_iter().zip(0..).collect();
    for clock in &mut clocks {
        **clock = ranks.get(clock).copied().unwrap_or(**clock);
    }
    ranked
}

/// Every step of this kind at the clock of the call before it; the others as long after theirs as they were.
fn without_waiting(stream: &Stream, kind: u8) -> Stream {
    let mut earlier = stream.clone();
    let (mut old, mut new) = (stream.opening.clock, stream.opening.clock);
    for call in &mut earlier.calls {
        let Call::Step(step) = call else { continue };
        let waited = step.clock.saturating_sub(old);
        let back = old.saturating_sub(step.clock);
        old = step.clock;
        new = new.saturating_sub(back);
        if step.kind != kind {
            new = new.saturating_add(waited);
        }
        step.clock = new;
    }
    earlier
}

/// All clocks earlier by the opening's.
fn from_clock_0(stream: &Stream) -> Stream {
    let mut moved = stream.clone();
    let start = std::mem::take(&mut moved.opening.clock);
    for call in &mut moved.calls {
        if let Call::Step(step) = call {
            step.clock = step.clock.saturating_sub(start);
        }
    }
    moved
}

/// All heights lower by the opening's.
fn from_height_0(stream: &Stream) -> Stream {
    let mut moved = stream.clone();
    let start = std::mem::take(&mut moved.opening.height);
    for call in &mut moved.calls {
        let Call::Step(step) = call else { continue };
        for height in [&mut step.height, &mut step.fork, &mut step.tip] {
            *height = height.saturating_sub(start);
        }
        change_first(&mut step.view, |first| first.saturating_sub(start));
    }
    moved
}

impl Shrinker<'_> {
    /// The lowest value that will do, if those that do lie together.
    fn lower(&mut self, slot: usize) -> Result<(), String> {
        let Some((mut low, mut high)) = number(&self.best, slot) else {
            return Ok(());
        };
        if high == low || self.keeps_small(with_number(&self.best, slot, low))? {
            return Ok(());
        }
        while high - low > 1 {
            let middle = low + (high - low) / 2;
            if self.keeps_small(with_number(&self.best, slot, middle))? {
                high = middle;
            } else {
                low = middle;
            }
            if number(&self.best, slot).map(|number| number.1) != Some(high) {
                break;
            }
        }
        Ok(())
    }

    pub(super) fn numbers_at_once(&mut self) -> Result<(), String> {
        if self.keeps(all_zero(&self.best))? {
            return Ok(());
        }
        self.keeps(from_clock_0(&self.best))?;
        self.keeps(from_height_0(&self.best))?;
        let kinds: BTreeSet<u8> = self.best.calls.iter().filter_map(Call::kind).collect();
        for kind in kinds {
            self.keeps(without_waiting(&self.best, kind))?;
        }
        let ranked = ranked_clocks(&self.best);
        if !self.keeps(without_settings(ranked.clone()))? {
            self.keeps(ranked)?;
        }
        Ok(())
    }

    pub(super) fn lower_numbers(&mut self) -> Result<(), String> {
        let mut slot = 0;
        while number(&self.best, slot).is_some() && !self.gives_up() {
            self.lower(slot)?;
            slot += 1;
        }
        Ok(())
    }
}
