//! The time axis: one scale for the whole drawing, and a mark on every span that can't keep it.

use super::canvas::{Anchor, Canvas, Font, Stroke, BACKGROUND, FAINT, TEXT};
use super::sheet::Sheet;
use super::LEFT;
use crate::play::Moment;
use crate::text::grouped;

/// Nearer than this two steps can't be read.
pub const CLOSEST: f64 = 124.0;
/// Wider than this a span says no more.
pub const WIDEST: f64 = 372.0;
/// Text centred on a step is no wider, whatever room there is.
const MOST_ROOM: f64 = 150.0;

/// How the room between two steps stands to the time between them.
#[derive(Debug, Clone, Copy, PartialEq, Eq)]
pub enum Scale {
    Kept,
    /// More room than the time asks for.
    Stretched,
    /// Less room: the axis is broken.
    Cut,
}

/// The room between a step and the next.
#[derive(Debug, Clone, Copy, PartialEq)]
pub struct Span {
    pub time: u64,
    /// The clock of the next step, a refused one, is so much earlier.
    pub back: bool,
    pub width: f64,
    pub scale: Scale,
}

/// A step's place.
#[derive(Debug, Clone, Copy, PartialEq)]
pub struct Column {
    pub x: f64,
    /// Text centred on the step may be so wide.
    pub room: f64,
}

impl Span {
    fn of(time: u64, closest: u64) -> Self {
        let width = time as f64 / closest as f64 * CLOSEST;
        let (width, scale) = if width < CLOSEST {
            (CLOSEST, Scale::Stretched)
        } else if width > WIDEST {
            (WIDEST, Scale::Cut)
        } else {
            (width, Scale::Kept)
        };
        Self {
            time,
            back: false,
            width,
            scale,
        }
    }

    fn between(from: u64, to: u64, closest: u64) -> Self {
        if from <= to {
            return Self::of(to - from, closest);
        }
        Self {
            time: from - to,
            back: true,
            width: CLOSEST,
            scale: Scale::Stretched,
        }
    }

    fn words(&self) -> String {
        let sign = if self.back { '\u{2212}' } else { '+' };
        format!("{sign}{}", grouped(self.time))
    }
}

/// The spans between the steps, all by one scale.
pub fn spans(moments: &[&Moment]) -> Vec<Span> {
    let clocks = || {
        let next = moments.iter().skip(1);
        let pairs = moments.iter().zip(next);
        pairs.map(|(from, to)| (from.clock, to.clock))
    };
    let times: Vec<u64> = clocks().map(|(from, to)| to.saturating_sub(from)).collect();
    let closest = closest_time(&times);
    clocks()
        .map(|(from, to)| Span::between(from, to, closest))
        .collect()
}

/// The time that the closest steps are apart: the one by which most is to scale. Long spans count for more, but not by
/// their length, so that a single very long one does not press all others together.
fn closest_time(times: &[u64]) -> u64 {
    let mut passing: Vec<u64> = times.iter().copied().filter(|time| *time > 0).collect();
    passing.sort_unstable();
    let usual = passing.get(passing.len() / 2).copied().unwrap_or(1);
    let weight = |time: u64| (time.min(usual.saturating_mul(10)) as f64).sqrt();
    let to_scale = |closest: u64| -> f64 {
        let kept = |time: &&u64| Span::of(**time, closest).scale == Scale::Kept;
        passing.iter().filter(kept).copied().map(weight).sum()
    };
    let mut candidates = passing.clone();
    candidates.dedup();
    let mut best = (1, 0.0);
    for candidate in candidates {
        let weight = to_scale(candidate);
        if weight >= best.1 {
            best = (candidate, weight);
        }
    }
    best.0
}

/// The places of a page's steps, which have these spans between them.
pub fn columns(spans: &[Span]) -> Vec<Column> {
    let mut columns = Vec::new();
    let mut x = LEFT + CLOSEST / 2.0;
    for number in 0..=spans.len() {
        let before = number.checked_sub(1).and_then(|at| spans.get(at));
        let after = spans.get(number);
        let nearest = before
            .into_iter()
            .chain(after)
            .fold(MOST_ROOM, |one, other| one.min(other.width));
        columns.push(Column {
            x,
            room: nearest - 6.0,
        });
        x += after.map_or(0.0, |span| span.width);
    }
    columns
}

/// A piece of the axis in its manner, from x to x.
pub fn piece(canvas: &mut Canvas, scale: Scale, (from, to): (f64, f64), y: f64) {
    match scale {
        Scale::Kept => canvas.line((from, y), (to, y), 2.0, TEXT, Stroke::Solid),
        Scale::Stretched => canvas.line((from, y), (to, y), 2.5, TEXT, Stroke::Dotted),
        Scale::Cut => {
            canvas.line((from, y), (to, y), 2.0, TEXT, Stroke::Solid);
            tear(canvas, (from + to) / 2.0, (y - 6.0, y + 6.0));
        }
    }
}

/// A tear from a height down to another, over whatever is drawn there.
fn tear(canvas: &mut Canvas, x: f64, (top, bottom): (f64, f64)) {
    const TOOTH: f64 = 6.0;
    let teeth = ((bottom - top) / TOOTH).ceil().max(1.0) as usize;
    let edge = |aside: f64| -> Vec<(f64, f64)> {
        let point = |tooth: usize| {
            let side = if tooth.is_multiple_of(2) { -2.5 } else { 2.5 };
            let y = (TOOTH * tooth as f64).min(bottom - top);
            (side + aside, y)
        };
        (0..=teeth).map(point).collect()
    };
    let mut strip = edge(-3.0);
    strip.extend(edge(3.0).into_iter().rev());
    canvas.path(x, top, &strip, BACKGROUND, BACKGROUND);
    for aside in [-3.0, 3.0] {
        canvas.thin_path(x, top, &edge(aside), FAINT);
    }
}

impl Sheet<'_> {
    /// The axis below the clocks, with the time between two steps.
    pub(super) fn axis(&self, canvas: &mut Canvas) {
        let y = self.rows.axis;
        canvas.open("axis", "clock");
        let font = Font::new(11.0, FAINT, Anchor::Middle);
        if let (Some(first), Some(last)) = (self.columns.first(), self.columns.last()) {
            if let Some(span) = self.span_before {
                piece(canvas, Scale::Stretched, (LEFT, first.x), y);
                let words = font.fitted(&span.words(), first.x - LEFT);
                canvas.text((LEFT + first.x) / 2.0, y + 16.0, font, &words);
            }
            if self.goes_on() {
                piece(canvas, Scale::Stretched, (last.x, self.right), y);
            }
        }
        for (span, pair) in self.spans.iter().zip(self.columns.windows(2)) {
            let [from, to] = pair else { continue };
            canvas.open(scale_word(span.scale), &span.time.to_string());
            piece(canvas, span.scale, (from.x, to.x), y);
            let words = font.fitted(&span.words(), span.width - 12.0);
            canvas.text((from.x + to.x) / 2.0, y + 16.0, font, &words);
            canvas.close();
        }
        for column in &self.columns {
            canvas.line(
                (column.x, y - 5.0),
                (column.x, y + 5.0),
                2.0,
                TEXT,
                Stroke::Solid,
            );
        }
        canvas.close();
    }

    /// The broken spans, torn through all lanes.
    pub(super) fn tears(&self, canvas: &mut Canvas) {
        for (span, pair) in self.spans.iter().zip(self.columns.windows(2)) {
            if let (Scale::Cut, [from, to]) = (span.scale, pair) {
                let middle = (from.x + to.x) / 2.0;
                tear(canvas, middle, (self.rows.heights - 8.0, self.rows.bottom));
            }
        }
    }
}

fn scale_word(scale: Scale) -> &'static str {
    match scale {
        Scale::Kept => "to-scale",
        Scale::Stretched => "stretched",
        Scale::Cut => "cut",
    }
}

#[cfg(test)]
mod tests {
    use super::{closest_time, Scale, Span, CLOSEST, WIDEST};

    /// What is drawn as to scale is to scale, and what is not is marked on the side to which it errs.
    #[test]
    fn spans_are_to_scale_or_marked() {
        let times = [
            0,
            1,
            300,
            1_000,
            3_300,
            5_000,
            5_000,
            11_000,
            60_000,
            u64::MAX,
        ];
        let closest = closest_time(&times);
        let per_ms = CLOSEST / closest as f64;
        for time in times {
            let span = Span::of(time, closest);
            let asked = time as f64 * per_ms;
            match span.scale {
                Scale::Kept => assert!((span.width - asked).abs() < 1e-6, "{span:?}"),
                Scale::Stretched => assert!(asked < CLOSEST && span.width == CLOSEST, "{span:?}"),
                Scale::Cut => assert!(asked > WIDEST && span.width == WIDEST, "{span:?}"),
            }
        }
        let [one, eleven] = [1_000, 11_000].map(|time| Span::of(time, closest));
        assert!(one.scale != Scale::Kept || eleven.scale != Scale::Kept);
        assert_eq!(Span::of(5_000, closest).scale, Scale::Kept);
    }

    #[test]
    fn steps_at_one_clock_have_a_scale_too() {
        assert_eq!(closest_time(&[]), 1);
        assert_eq!(closest_time(&[0, 0]), 1);
        assert_eq!(Span::of(0, 1).scale, Scale::Stretched);
    }
}
