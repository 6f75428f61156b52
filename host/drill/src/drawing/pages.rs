//! A long drawing is cut into pages: by steps where it is too wide, by ids where it is too high.

use super::axis::{Span, CLOSEST};
use super::lanes::{lanes, Lane};
use crate::play::Moment;
use crate::text::grouped;
use request_keeper::Id;
use std::collections::BTreeSet;
use std::fmt::{self, Display, Formatter};
use std::ops::Range;

/// The columns of a page are no wider.
const MOST_WIDTH: f64 = 3_000.0;
const MOST_LANES: usize = 32;
const MOST_PAGES: usize = 100;

/// What a page shows.
#[derive(Debug)]
pub struct Page {
    pub steps: Range<usize>,
    pub lanes: Vec<Lane>,
    /// Which of the steps' lanes these are, and of how many.
    pub part: (Range<usize>, usize),
}

/// The drawing would have more pages than anybody hangs up.
#[derive(Debug, Clone, PartialEq, Eq)]
pub struct TooLong {
    pub pages: usize,
}

impl Display for TooLong {
    fn fmt(&self, out: &mut Formatter<'_>) -> fmt::Result {
        write!(
            out,
            "not drawn: the drawing would have {} pages, and at most {MOST_PAGES} are drawn; a page takes {MOST_LANES} ids \
             and, by the time between them, {} to {} steps",
            grouped(self.pages as u64),
            (MOST_WIDTH / super::axis::WIDEST) as usize + 1,
            (MOST_WIDTH / CLOSEST) as usize + 1,
        )
    }
}

impl std::error::Error for TooLong {}

/// The steps of each page.
fn cut(steps: usize, spans: &[Span]) -> Vec<Range<usize>> {
    let mut parts = Vec::new();
    let (mut first, mut width) = (0, 0.0);
    for (number, span) in spans.iter().enumerate() {
        width += span.width;
        if width > MOST_WIDTH {
            parts.push(first..number + 1);
            (first, width) = (number + 1, 0.0);
        }
    }
    parts.push(first..steps);
    parts
}

/// The ids that a page's steps touch or find on order or evicted.
fn shown(moments: &[&Moment]) -> BTreeSet<Id> {
    let touched = moments
        .iter()
        .flat_map(|moment| moment.fates.iter().map(|fate| fate.id));
    let mut ids: BTreeSet<Id> = touched.collect();
    if let Some(first) = moments.first() {
        ids.extend(first.before.pending.keys());
        ids.extend(&first.before.evicted);
    }
    ids
}

/// The pages, those of the same steps one after another.
pub fn pages(moments: &[&Moment], spans: &[Span]) -> Result<Vec<Page>, TooLong> {
    let all = lanes(moments);
    let parts: Vec<(Range<usize>, Vec<Lane>)> = cut(moments.len(), spans)
        .into_iter()
        .map(|steps| {
            let ids = shown(moments.get(steps.clone()).unwrap_or_default());
            let lanes = all.iter().filter(|lane| ids.contains(&lane.id));
            (steps, lanes.copied().collect())
        })
        .collect();
    let count = |lanes: &Vec<Lane>| lanes.len().div_ceil(MOST_LANES).max(1);
    let number = parts.iter().map(|(_, lanes)| count(lanes)).sum();
    if number > MOST_PAGES {
        return Err(TooLong { pages: number });
    }
    let mut pages = Vec::new();
    for (steps, lanes) in parts {
        for part in 0..count(&lanes) {
            let from = part * MOST_LANES;
            let to = lanes.len().min(from + MOST_LANES);
            pages.push(Page {
                steps: steps.clone(),
                lanes: lanes.get(from..to).unwrap_or_default().to_vec(),
                part: (from..to, lanes.len()),
            });
        }
    }
    Ok(pages)
}
