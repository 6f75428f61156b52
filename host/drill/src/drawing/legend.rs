//! What the marks and colours mean.

use super::axis::{piece, Scale};
use super::canvas::{Anchor, Canvas, Font, Stroke, AMBER, FAINT, TEXT};
use super::heads::{badge, outcome_look, SHUT};
use super::heights::MISSING;
use super::marks::{Mark, LEGEND};
use super::sheet::Sheet;
use request_keeper::{Outcome, Peer};

const ROW: f64 = 24.0;
/// The legend's columns start this far apart.
const COLUMN: f64 = 350.0;
/// Where the words begin, behind their sign.
const WORDS: f64 = 26.0;

/// A sign of the legend.
enum Sign {
    Mark(Mark),
    OnOrder(Peer),
    Evicted,
    Downloaded,
    Chain,
    Missing,
    Shut,
    Axis(Scale),
    BadNews,
}

impl Sheet<'_> {
    /// The peers of whom something is on order on this page.
    fn peers_shown(&self) -> Vec<Peer> {
        let shown = |peer: &&Peer| {
            self.moments.iter().any(|moment| {
                let mut requests = moment
                    .before
                    .pending
                    .values()
                    .chain(moment.after.pending.values());
                requests.any(|request| request.peer == **peer)
            })
        };
        self.drawing.peers.iter().filter(shown).copied().collect()
    }

    fn signs(&self) -> Vec<(Sign, String)> {
        let said = |sign, words: &str| (sign, words.to_string());
        let mut signs: Vec<(Sign, String)> = LEGEND
            .iter()
            .map(|(mark, words)| said(Sign::Mark(*mark), words))
            .collect();
        for peer in self.peers_shown() {
            let words = format!("on order from {}", self.played.names.show_peer(peer));
            signs.push((Sign::OnOrder(peer), words));
        }
        signs.extend([
            said(Sign::Evicted, "in the evicted list"),
            said(Sign::Downloaded, "the downloaded height"),
            said(Sign::Chain, "the height of our header chain"),
            said(Sign::Missing, "in our chain and not downloaded"),
            said(Sign::Shut, "the gate is shut"),
            said(Sign::Axis(Scale::Kept), "time to scale, in ms"),
            said(
                Sign::Axis(Scale::Stretched),
                "less time than the room shows",
            ),
            said(Sign::Axis(Scale::Cut), "more time than the room shows"),
            said(Sign::BadNews, "bad news"),
        ]);
        signs
    }

    fn sign(&self, canvas: &mut Canvas, sign: &Sign, (x, y): (f64, f64)) {
        let (from, to) = (x - 14.0, x + 14.0);
        let mut line =
            |colour: &str, width, stroke| canvas.line((from, y), (to, y), width, colour, stroke);
        match sign {
            Sign::Mark(mark) => {
                let first = self.drawing.peers.first();
                let colour = first.map_or(FAINT, |peer| self.colour(*peer));
                mark.draw(canvas, x, y, colour);
            }
            Sign::OnOrder(peer) => line(self.colour(*peer), 5.0, Stroke::Solid),
            Sign::Evicted => line(AMBER, 4.0, Stroke::Dashed),
            Sign::Downloaded => line(TEXT, 4.0, Stroke::Solid),
            Sign::Chain => line(FAINT, 1.5, Stroke::Dashed),
            Sign::Missing => canvas.rectangle(from, y - 7.0, 28.0, 14.0, MISSING),
            Sign::Shut => canvas.rectangle(from, y - 7.0, 28.0, 14.0, SHUT),
            Sign::Axis(scale) => piece(canvas, *scale, (from, to), y),
            Sign::BadNews => badge(
                canvas,
                (x, y + 4.0),
                28.0,
                "!",
                outcome_look(Outcome::Stalled),
            ),
        }
    }

    /// Draws the legend from a height on; gives the right and lower end.
    pub(super) fn legend(&self, canvas: &mut Canvas, top: f64) -> (f64, f64) {
        let font = Font::new(12.5, TEXT, Anchor::Start);
        let signs = self.signs();
        let columns = (((self.right - 16.0) / COLUMN) as usize).clamp(3, 6);
        let rows = signs.len().div_ceil(columns);
        canvas.open("legend", "legend");
        for (number, (sign, words)) in signs.iter().enumerate() {
            let x = 36.0 + COLUMN * (number / rows) as f64;
            let y = top + ROW * (number % rows) as f64;
            self.sign(canvas, sign, (x, y));
            let words = font.fitted(words, COLUMN - WORDS - 30.0);
            canvas.text(x + WORDS, y + 4.5, font, &words);
        }
        canvas.close();
        (COLUMN * columns as f64, top + ROW * rows as f64 + 8.0)
    }
}
