//! The scenario's remarks, each on a note above the step that it stands before.

use super::axis::{Column, CLOSEST};
use super::canvas::{Anchor, Canvas, Font, TEXT};
use super::sheet::Sheet;
use super::LEFT;
use crate::play::{Item, Played};

const NOTE: &str = "#fff3cf";
const LINE: f64 = 16.0;
/// Between the edge of a note and its text.
const EDGE: f64 = 8.0;
const WIDEST: f64 = 300.0;
const POINTER: f64 = 8.0;
/// Between two notes.
const GAP: f64 = 6.0;
const FONT: Font = Font::new(12.0, TEXT, Anchor::Start).on_colour();

/// A remark with its place.
#[derive(Debug, Clone, PartialEq)]
pub struct Note {
    left: f64,
    width: f64,
    lines: Vec<String>,
    /// Where its step stands; `None` behind the last step.
    points_to: Option<f64>,
}

/// The remarks before each step, in paragraphs, and at the end those behind the last.
pub fn remarks(played: &Played) -> Vec<Vec<String>> {
    let mut remarks = Vec::new();
    let mut next = Vec::new();
    for item in &played.items {
        match item {
            Item::Say(text) if text.is_empty() => {}
            Item::Say(text) => next.push(text.clone()),
            Item::Change(_) => {}
            Item::Moment(_) => remarks.push(std::mem::take(&mut next)),
        }
    }
    remarks.push(next);
    remarks
}

/// The notes of a page that ends here, and where it ends with them. A note reaches to the next one, and where that is near,
/// back to the one before.
pub fn notes(texts: &[Vec<String>], columns: &[Column], end: f64) -> (Vec<Note>, f64) {
    let place = |number: usize| columns.get(number).map(|column| column.x);
    let left = |number: usize| match place(number) {
        Some(x) => x - CLOSEST / 2.0 + 2.0,
        None => end - 14.0,
    };
    let spoken = |number: &usize| texts.get(*number).is_some_and(|text| !text.is_empty());
    let numbers: Vec<usize> = (0..texts.len()).filter(spoken).collect();
    let mut notes: Vec<Note> = Vec::new();
    let mut free = LEFT;
    for (at, number) in numbers.iter().enumerate() {
        let next = numbers.get(at + 1).map(|next| left(*next) - GAP);
        let most = next.map_or(left(*number) + WIDEST, |next| {
            next.min(left(*number) + WIDEST)
        });
        let from = left(*number).min(free.max(most - WIDEST));
        let paragraphs = texts.get(*number).into_iter().flatten();
        let lines = paragraphs.flat_map(|text| FONT.wrapped(text, most - from - 2.0 * EDGE));
        let lines: Vec<String> = lines.collect();
        let widest = lines
            .iter()
            .map(|line| FONT.width(line))
            .fold(0.0, f64::max);
        let width = (widest + 2.0 * EDGE).max(CLOSEST - GAP);
        // A short note stands over its step again.
        let from = from.max((most - width).min(left(*number)));
        free = from + width + GAP;
        notes.push(Note {
            left: from,
            width,
            lines,
            points_to: place(*number),
        });
    }
    (notes, end.max(free - GAP))
}

impl Note {
    fn height(&self) -> f64 {
        LINE * self.lines.len() as f64 + EDGE
    }
}

/// The room that a page's notes take.
pub fn notes_height(notes: &[Note]) -> f64 {
    let highest = notes.iter().map(Note::height).fold(0.0, f64::max);
    if notes.is_empty() {
        0.0
    } else {
        highest + POINTER + 4.0
    }
}

impl Sheet<'_> {
    /// Draws the notes, with their lower ends in a line.
    pub(super) fn notes(&self, canvas: &mut Canvas, notes: &[Note]) {
        let bottom = self.rows.notes - POINTER;
        for note in notes {
            let top = bottom - note.height();
            canvas.open("note", "");
            canvas.rounded(note.left, top, note.width, note.height(), NOTE);
            if let Some(x) = note.points_to {
                let pointer = [(-7.0, -1.0), (7.0, -1.0), (0.0, POINTER - 1.0)];
                canvas.path(x, bottom, &pointer, NOTE, NOTE);
            }
            for (number, line) in note.lines.iter().enumerate() {
                let y = top + EDGE / 2.0 + LINE * number as f64 + 12.0;
                canvas.text(note.left + EDGE, y, FONT, line);
            }
            canvas.close();
        }
    }
}
