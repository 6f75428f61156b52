//! Lists made shorter, entry by entry.

use super::{Shrinker, ROUGH};
use crate::stream::{Call, VIEW_HEAD, VIEW_ROW};
use keeper_values::numbers::widths::{ID, PAIR, PEER};
use keeper_values::Arguments;

type ListOf = fn(&mut Arguments) -> &mut Vec<u8>;

/// The lists of a step: where its entries begin, and how wide they are.
const LISTS: [(ListOf, usize, usize); 5] = [
    (|step| &mut step.ids, 0, ID),
    (|step| &mut step.continuation, 0, ID),
    (|step| &mut step.stored, 0, PAIR),
    (|step| &mut step.peers, 0, PEER),
    (|step| &mut step.view, VIEW_HEAD, VIEW_ROW),
];

pub fn empty_all(step: &mut Arguments) {
    for (of, head, _) in LISTS {
        of(step).truncate(head);
    }
}

impl Shrinker<'_> {
    fn entries(&mut self, call: usize, list: usize) -> usize {
        let (of, head, width) = LISTS[list];
        match self.best.calls.get_mut(call) {
            Some(Call::Step(step)) => of(step).len().saturating_sub(head) / width,
            _ => 0,
        }
    }

    /// Drops runs of entries of one list, long ones first, from the end; the shortest are this part of the list.
    fn shorten(&mut self, call: usize, list: usize, parts: usize) -> Result<(), String> {
        let (of, head, width) = LISTS[list];
        let mut run = self.entries(call, list);
        // The big bites of a short list are small ones of the stream.
        if parts == ROUGH && run < ROUGH {
            return Ok(());
        }
        let least = (run / parts).max(1);
        while run >= least {
            let mut end = self.entries(call, list);
            while end > 0 {
                let start = end.saturating_sub(run);
                let dropped = head + start * width..head + end * width;
                let candidate = self.changed(call, |step| {
                    of(step).drain(dropped);
                });
                if parts == ROUGH {
                    self.keeps(candidate)?;
                } else {
                    self.keeps_small(candidate)?;
                }
                end = start.min(self.entries(call, list));
            }
            run /= 2;
        }
        Ok(())
    }

    pub(super) fn shorten_lists(&mut self, parts: usize) -> Result<(), String> {
        let mut call = 0;
        while call < self.best.calls.len() && !self.gives_up() {
            for list in 0..LISTS.len() {
                self.shorten(call, list, parts)?;
            }
            call += 1;
        }
        Ok(())
    }
}
