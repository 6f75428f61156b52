//! The heads of the columns: step, outcome, where the keeper stands, clock. And the band of a shut gate.

use super::axis::Column;
use super::canvas::{
    Anchor, Canvas, Font, Stroke, AMBER, BACKGROUND, FAINT, GREEN, LINE, RED, TEXT,
};
use super::sheet::Sheet;
use crate::play::Moment;
use crate::text::{grouped, mode_word};
use request_keeper::Outcome;

const ROW: f64 = 17.0;
const PLAIN: Font = Font::new(12.0, TEXT, Anchor::Middle);
const STEP: Font = PLAIN.bold();
const CLOCK: Font = Font::new(13.0, TEXT, Anchor::Middle).bold();
/// How far left of its step a band begins.
const BEFORE: f64 = 44.0;
pub const SHUT: &str = "#fbe3e3";

/// What lines the heads of a page have.
#[derive(Debug, Clone, Copy)]
pub struct Heads {
    /// Lines for what follows the step's word.
    details: usize,
    /// Whether an expectation of some step is not met.
    unmet: bool,
}

/// A step's word, and the lines of what follows it.
fn named(moment: &Moment, room: f64) -> (&str, Vec<String>) {
    let (word, rest) = moment.text.split_once(' ').unwrap_or((&moment.text, ""));
    let mut lines = PLAIN.wrapped(rest, room);
    if lines.len() > 2 {
        let tail = lines.split_off(1).join(" ");
        lines.push(PLAIN.fitted(&tail, room));
    }
    (word, lines)
}

fn unmet(moment: &Moment) -> usize {
    let verdicts = moment.verdicts.iter();
    verdicts.filter(|verdict| !verdict.met()).count()
}

impl Heads {
    pub fn of(moments: &[&Moment], columns: &[Column]) -> Self {
        let details = moments
            .iter()
            .zip(columns)
            .map(|(moment, column)| named(moment, column.room).1.len());
        Self {
            details: details.max().unwrap_or(0),
            unmet: moments.iter().any(|moment| unmet(moment) > 0),
        }
    }

    /// From the first line down to the axis.
    pub fn height(&self) -> f64 {
        let lines = 5 + self.details + usize::from(self.unmet);
        ROW * lines as f64 - 4.0
    }
}

/// How an outcome looks: its colour, and whether it stands out as bad news does.
pub fn outcome_look(outcome: Outcome) -> (&'static str, bool) {
    match outcome {
        Outcome::Continue => (FAINT, false),
        Outcome::Synced => (GREEN, false),
        Outcome::BehindPeer => (AMBER, true),
        Outcome::SyncPeerGone | Outcome::Stalled | Outcome::Unknown(_) => (RED, true),
        Outcome::EndOfStream => (TEXT, false),
    }
}

/// A word centred at a place; bad news on a coloured ground.
pub fn badge(
    canvas: &mut Canvas,
    (x, y): (f64, f64),
    room: f64,
    word: &str,
    look: (&'static str, bool),
) {
    let (colour, bad) = look;
    let font = PLAIN.bold().coloured(colour);
    let word = font.fitted(word, room);
    if !bad {
        canvas.text(x, y, font, &word);
        return;
    }
    let width = (font.width(&word) + 10.0).min(room + 4.0);
    canvas.rounded(x - width / 2.0, y - 12.0, width, 16.0, colour);
    canvas.text(x, y, font.coloured(BACKGROUND).on_colour(), &word);
}

impl Sheet<'_> {
    /// The head of a column, above a thin line through all lanes.
    pub(super) fn head(&self, canvas: &mut Canvas, moment: &Moment, column: Column) {
        let Column { x, room } = column;
        let faint = PLAIN.coloured(FAINT);
        let (word, details) = named(moment, room);
        let after = &moment.after;
        let mut hint = vec![format!("{} {}", grouped(moment.clock), moment.text)];
        hint.extend(
            moment
                .reasons
                .iter()
                .map(|(label, why)| format!("{label}: {why}")),
        );
        canvas.open("step", &moment.text);
        canvas.hint(&hint.join("\n"));
        canvas.line(
            (x, self.rows.axis),
            (x, self.rows.bottom),
            1.0,
            LINE,
            Stroke::Solid,
        );
        let mut y = self.rows.heads;
        canvas.text(x, y, STEP, &STEP.fitted(word, room));
        for number in 0..self.heads.details {
            y += ROW;
            canvas.text(x, y, PLAIN, details.get(number).map_or("", String::as_str));
        }
        y += ROW;
        match &moment.result {
            Ok(answer) => {
                let words = format!("{:?}", answer.outcome);
                badge(canvas, (x, y), room, &words, outcome_look(answer.outcome));
            }
            Err(refusal) => {
                let words = format!("refused {}", refusal.number());
                badge(canvas, (x, y), room, &words, (RED, true));
            }
        }
        y += ROW;
        canvas.text(x, y, faint, &mode_word(after.mode));
        y += ROW;
        if let Some(peer) = after.sync_peer {
            let words = format!("with {}", self.played.names.show_peer(peer));
            canvas.text(x, y, faint, &faint.fitted(&words, room));
        }
        let unmet = unmet(moment);
        if unmet > 0 {
            let font = PLAIN.bold().coloured(RED);
            let words = format!("{unmet} not met");
            canvas.text(x, y + ROW, font, &font.fitted(&words, room));
        }
        let clock = grouped(moment.clock);
        canvas.text(x, self.rows.axis - 10.0, CLOCK, &CLOCK.fitted(&clock, room));
        canvas.close();
    }

    /// A tinted band over the steps behind a shut gate.
    pub(super) fn shut_gate(&self, canvas: &mut Canvas) {
        let top = self.rows.axis + 20.0;
        let mut from = None;
        let mut bands = Vec::new();
        for (moment, column) in self.places() {
            let x = column.x - BEFORE;
            match (moment.gate_open, from) {
                (false, None) => from = Some(x),
                (true, Some(start)) => {
                    bands.push((start, x));
                    from = None;
                }
                _ => {}
            }
        }
        bands.extend(from.map(|start| (start, self.right)));
        for (from, to) in bands {
            canvas.rectangle(from, top, to - from, self.rows.bottom - top, SHUT);
            let font = Font::new(12.0, RED, Anchor::Start).on_colour();
            canvas.text(from + BEFORE + 6.0, top + 14.0, font, "gate shut");
        }
    }
}
