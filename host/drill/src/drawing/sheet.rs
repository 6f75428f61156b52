//! One page: where everything stands on it.

use super::axis::{columns, Column, Span};
use super::canvas::{Anchor, Canvas, Font, FAINT, RED, TEXT};
use super::heads::Heads;
use super::lanes::{Lane, LANE};
use super::remarks::{notes, notes_height, Note};
use super::Drawing;
use crate::play::{Moment, Played};
use crate::text::grouped;
use crate::timeline::summary;
use request_keeper::Peer;
use std::ops::Range;

/// The room right of a page's last step.
const RIGHT: f64 = 84.0;
/// Below title and settings.
const TOP: f64 = 72.0;
const HEIGHT_LANE: f64 = 76.0;

/// The heights at which the parts of a page stand.
#[derive(Debug, Clone, Copy, Default)]
pub struct Rows {
    /// The lower end of the remarks.
    pub notes: f64,
    /// The first line of the heads.
    pub heads: f64,
    pub axis: f64,
    /// The upper end of the lane of the downloaded height.
    pub heights: f64,
    pub lanes: f64,
    pub bottom: f64,
}

pub struct Sheet<'a> {
    pub drawing: &'a Drawing<'a>,
    pub played: &'a Played,
    pub moments: &'a [&'a Moment],
    pub steps: Range<usize>,
    pub lanes: &'a [Lane],
    pub spans: &'a [Span],
    /// From the last step of the page before.
    pub span_before: Option<Span>,
    pub columns: Vec<Column>,
    pub heads: Heads,
    notes: Vec<Note>,
    pub rows: Rows,
    /// Where lanes end.
    pub right: f64,
    /// Which page it is, if there are several.
    numbering: Option<String>,
}

impl<'a> Sheet<'a> {
    /// A page of a drawing; `None` if there is no such page.
    pub fn of(drawing: &'a Drawing<'a>, number: usize) -> Option<Self> {
        let page = drawing.pages.get(number)?;
        let steps = page.steps.clone();
        let moments = drawing.moments.get(steps.clone())?;
        let inner = steps.start..steps.end.saturating_sub(1).max(steps.start);
        let spans = drawing.spans.get(inner).unwrap_or_default();
        let span_before = steps.start.checked_sub(1);
        let span_before = span_before.and_then(|at| drawing.spans.get(at).copied());
        let columns = columns(spans);
        let end = columns.last().map_or(0.0, |last| last.x) + RIGHT;
        let ends_all = steps.end == drawing.moments.len();
        let texts = drawing
            .remarks
            .get(steps.start..steps.end + usize::from(ends_all));
        let (notes, right) = notes(texts.unwrap_or_default(), &columns, end);
        let heads = Heads::of(moments, &columns);
        let numbering = (drawing.pages.len() > 1).then(|| {
            let (ids, of) = &page.part;
            let mut words = format!(
                "page {} of {}: steps {} to {} of {}",
                number + 1,
                drawing.pages.len(),
                steps.start + 1,
                steps.end,
                drawing.moments.len()
            );
            if ids.len() < *of {
                words += &format!(
                    "; ids {} to {} of {of} on these steps",
                    ids.start + 1,
                    ids.end
                );
            }
            words
        });
        let mut rows = Rows::default();
        let top = TOP + if numbering.is_some() { 20.0 } else { 0.0 };
        rows.notes = top + notes_height(&notes);
        rows.heads = rows.notes + 20.0;
        rows.axis = rows.heads + heads.height();
        rows.heights = rows.axis + 34.0;
        rows.lanes = rows.heights + HEIGHT_LANE;
        rows.bottom = rows.lanes + LANE * page.lanes.len() as f64;
        Some(Self {
            drawing,
            played: drawing.played,
            moments,
            steps,
            lanes: &page.lanes,
            spans,
            span_before,
            columns,
            heads,
            notes,
            rows,
            right,
            numbering,
        })
    }

    /// Each step with its place.
    pub fn places(&self) -> impl Iterator<Item = (&'a Moment, Column)> + '_ {
        self.moments
            .iter()
            .copied()
            .zip(self.columns.iter().copied())
    }

    /// The place of the step after this one, or where lanes end.
    pub fn next_x(&self, number: usize) -> f64 {
        self.columns
            .get(number + 1)
            .map_or(self.right, |next| next.x)
    }

    /// Whether a later page goes on with later steps.
    pub fn goes_on(&self) -> bool {
        self.steps.end < self.drawing.moments.len()
    }

    pub fn colour(&self, peer: Peer) -> &'static str {
        self.drawing.colour(peer)
    }

    /// Draws everything and gives width and height.
    pub fn draw(&self, canvas: &mut Canvas) -> (f64, f64) {
        self.shut_gate(canvas);
        self.notes(canvas, &self.notes);
        for (moment, column) in self.places() {
            self.head(canvas, moment, column);
        }
        self.axis(canvas);
        self.height_lane(canvas);
        for (number, lane) in self.lanes.iter().enumerate() {
            let y = self.rows.lanes + LANE * (number as f64 + 0.5);
            self.lane(canvas, lane, y);
        }
        self.tears(canvas);
        for (number, lane) in self.lanes.iter().enumerate() {
            let y = self.rows.lanes + LANE * (number as f64 + 0.5);
            self.lane_marks(canvas, lane, y);
        }
        let (width, height) = self.legend(canvas, self.rows.bottom + 30.0);
        let width = self.right.max(width) + 16.0;
        self.title(canvas, width - 32.0);
        (width, height)
    }

    fn title(&self, canvas: &mut Canvas, width: f64) {
        let title = Font::new(20.0, TEXT, Anchor::Start).bold();
        let words = if self.played.title.is_empty() {
            "A drill"
        } else {
            &self.played.title
        };
        canvas.text(16.0, 34.0, title, &title.fitted(words, width));
        let line = Font::new(13.0, FAINT, Anchor::Start);
        let settings = &self.played.settings;
        let words = format!(
            "timeout {} ms, max_checks {}; {}",
            grouped(settings.timeout),
            grouped(settings.max_checks),
            summary(self.played)
        );
        let met = self.played.as_expected();
        let line = if met { line } else { line.coloured(RED) };
        canvas.text(16.0, 56.0, line, &line.fitted(&words, width));
        if let Some(words) = &self.numbering {
            canvas.text(16.0, 76.0, line.coloured(TEXT), words);
        }
    }
}
