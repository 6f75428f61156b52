//! The lanes: which ids have one, and what is drawn on it.

use super::canvas::{Anchor, Canvas, Font, Stroke, AMBER, FAINT, LINE, TEXT};
use super::marks::{drawn, Drawn};
use super::sheet::Sheet;
use super::LEFT;
use crate::fate_words::{words, Told};
use crate::fates::Became;
use crate::play::Moment;
use crate::scenario::show_type;
use crate::standing::Standing;
use crate::text::grouped;
use request_keeper::{Id, ModifierType, Peer};
use std::collections::BTreeSet;

pub const LANE: f64 = 62.0;
/// Room between two marks of one step.
const BESIDE: f64 = 20.0;
/// The bar of the evicted list runs so far below that of the order: both can hold at once.
pub const BELOW: f64 = 10.0;

/// An id's lane.
#[derive(Debug, Clone, Copy)]
pub struct Lane {
    pub id: Id,
    /// As it was first on order, if it ever was.
    pub modifier_type: Option<ModifierType>,
}

/// What holds of an id between two steps.
#[derive(Debug, Clone, Copy, PartialEq, Eq)]
struct Holds {
    on_order_from: Option<Peer>,
    evicted: bool,
}

impl Holds {
    fn of(id: &Id, standing: &Standing) -> Self {
        Self {
            on_order_from: standing.pending.get(id).map(|request| request.peer),
            evicted: standing.evicted.contains(id),
        }
    }
}

/// One lane an id that a step touched, in the order in which they come up.
pub fn lanes(moments: &[&Moment]) -> Vec<Lane> {
    let mut seen = BTreeSet::new();
    let mut lanes = Vec::new();
    for moment in moments {
        for fate in &moment.fates {
            if seen.insert(fate.id) {
                let first = moments
                    .iter()
                    .find_map(|moment| moment.after.pending.get(&fate.id));
                lanes.push(Lane {
                    id: fate.id,
                    modifier_type: first.map(|request| request.modifier_type),
                });
            }
        }
    }
    lanes
}

impl Sheet<'_> {
    /// Draws a lane with its bars at its height.
    pub(super) fn lane(&self, canvas: &mut Canvas, lane: &Lane, y: f64) {
        let name = self.played.names.show_id(&lane.id);
        let font = Font::new(14.0, TEXT, Anchor::End).bold();
        let small = Font::new(11.5, FAINT, Anchor::End);
        canvas.open("lane", &name);
        canvas.hint(&name);
        canvas.line((LEFT - 6.0, y), (self.right, y), 1.0, LINE, Stroke::Solid);
        canvas.text(LEFT - 14.0, y, font, &font.fitted(&name, LEFT - 24.0));
        if let Some(modifier_type) = lane.modifier_type {
            canvas.text(LEFT - 14.0, y + 15.0, small, &show_type(modifier_type));
        }
        self.bars(canvas, &lane.id, y);
        canvas.close();
    }

    /// A bar while the id is on order, and one below it while it stands in the evicted list.
    fn bars(&self, canvas: &mut Canvas, id: &Id, y: f64) {
        let before = self.places().next().map(|(moment, column)| {
            let holds = Holds::of(id, &moment.before);
            (holds, LEFT - 6.0, column.x)
        });
        let after = self.places().enumerate().map(|(number, (moment, column))| {
            let holds = Holds::of(id, &moment.after);
            (holds, column.x, self.next_x(number))
        });
        let pieces: Vec<_> = before.into_iter().chain(after).collect();
        let order = pieces
            .iter()
            .map(|(holds, from, to)| (holds.on_order_from, *from, *to));
        for (peer, from, to) in joined(order) {
            let colour = self.colour(peer);
            canvas.line((from, y), (to, y), 5.0, colour, Stroke::Solid);
        }
        let evicted = pieces
            .iter()
            .map(|(holds, from, to)| (holds.evicted.then_some(()), *from, *to));
        for ((), from, to) in joined(evicted) {
            let y = y + BELOW;
            canvas.open("evicted", &self.played.names.show_id(id));
            canvas.line((from, y), (to, y), 4.0, AMBER, Stroke::Dashed);
            canvas.close();
        }
    }

    /// Draws a lane's marks, over its bars.
    pub(super) fn lane_marks(&self, canvas: &mut Canvas, lane: &Lane, y: f64) {
        for (moment, column) in self.places() {
            let fates = moment.fates.iter().filter(|fate| fate.id == lane.id);
            let fates: Vec<&Became> = fates.map(|fate| &fate.became).collect();
            self.marks(canvas, moment, &fates, (column.x, y), column.room);
        }
    }

    /// What a step did to an id. Two marks stand side by side, and their words above both.
    fn marks(
        &self,
        canvas: &mut Canvas,
        moment: &Moment,
        fates: &[&Became],
        (x, y): (f64, f64),
        room: f64,
    ) {
        let names = &self.played.names;
        let marks: Vec<Drawn> = fates
            .iter()
            .filter_map(|became| drawn(became, names))
            .collect();
        if marks.is_empty() {
            return;
        }
        let told: Vec<String> = fates
            .iter()
            .map(|became| {
                let (label, why) = words(became, Told::One, &self.played.settings, names);
                format!("{} {label}: {why}", grouped(moment.clock))
            })
            .collect();
        canvas.open("mark", &moment.text);
        canvas.hint(&told.join("\n"));
        let first = x - BESIDE * (marks.len() as f64 - 1.0) / 2.0;
        for (number, each) in marks.iter().enumerate() {
            let colour = each.peer.map_or(FAINT, |peer| self.colour(peer));
            each.mark
                .draw(canvas, first + BESIDE * number as f64, y, colour);
        }
        let font = Font::new(11.5, FAINT, Anchor::Middle);
        let joined = |words: Vec<&str>| {
            let words: Vec<&str> = words.into_iter().filter(|word| !word.is_empty()).collect();
            font.fitted(&words.join(", "), room)
        };
        let above = joined(marks.iter().map(|mark| mark.above.as_str()).collect());
        let below = joined(marks.iter().map(|mark| mark.below.as_str()).collect());
        canvas.text(x, y - 13.0, font, &above);
        canvas.text(x, y + 23.0, font, &below);
        canvas.close();
    }
}

/// Pieces that follow each other with the same content, as one.
fn joined<T: PartialEq>(pieces: impl Iterator<Item = (Option<T>, f64, f64)>) -> Vec<(T, f64, f64)> {
    let mut bars: Vec<(T, f64, f64)> = Vec::new();
    for (content, from, to) in pieces {
        let Some(content) = content else { continue };
        match bars.last_mut() {
            Some((last, _, end)) if *last == content && *end == from => *end = to,
            _ => bars.push((content, from, to)),
        }
    }
    bars
}
