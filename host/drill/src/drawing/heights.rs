//! The lane of the downloaded height: how far it has come, and how far our chain goes.

use super::canvas::{Anchor, Canvas, Font, Stroke, FAINT, TEXT};
use super::sheet::Sheet;
use super::LEFT;

/// Heights that our chain has and the node has not downloaded.
pub const MISSING: &str = "#fbe0b8";
/// The room for the line, and what is above it.
const RISE: f64 = 38.0;
const ABOVE: f64 = 24.0;
/// Two numbers nearer to each other can't be read.
const APART: f64 = 15.0;

/// Between two steps: the heights, and from where to where.
struct Piece {
    downloaded: u32,
    chain: u32,
    from: f64,
    to: f64,
}

impl Sheet<'_> {
    /// From the edge of the page to its first step, and on from each step.
    fn pieces(&self) -> Vec<Piece> {
        let first = self.places().next().map(|(moment, column)| Piece {
            downloaded: moment.before.downloaded,
            chain: moment.chain_height,
            from: LEFT,
            to: column.x,
        });
        let rest = self.places().enumerate();
        let rest = rest.map(|(number, (moment, column))| Piece {
            downloaded: moment.after.downloaded,
            chain: moment.chain_height,
            from: column.x,
            to: self.next_x(number),
        });
        first.into_iter().chain(rest).collect()
    }

    /// Draws the lane.
    pub(super) fn height_lane(&self, canvas: &mut Canvas) {
        let pieces = self.pieces();
        let lowest = pieces
            .iter()
            .map(|piece| piece.downloaded.min(piece.chain))
            .min();
        let highest = pieces
            .iter()
            .map(|piece| piece.downloaded.max(piece.chain))
            .max();
        let (lowest, highest) = (lowest.unwrap_or(0), highest.unwrap_or(0));
        let base = self.rows.heights + ABOVE + RISE;
        let level = |height: u32| {
            let part = f64::from(height - lowest) / f64::from((highest - lowest).max(1));
            base - RISE * part
        };
        let name = Font::new(14.0, TEXT, Anchor::End).bold();
        let small = Font::new(11.5, FAINT, Anchor::End);
        canvas.open("height", "downloaded height");
        canvas.text(LEFT - 14.0, base - 16.0, name, "downloaded");
        canvas.text(LEFT - 14.0, base - 1.0, small, "height");
        for piece in &pieces {
            let (y, chain) = (level(piece.downloaded), level(piece.chain));
            if piece.chain > piece.downloaded {
                canvas.rectangle(piece.from, chain, piece.to - piece.from, y - chain, MISSING);
            }
        }
        let mut before: Option<&Piece> = None;
        for piece in &pieces {
            let (y, chain) = (level(piece.downloaded), level(piece.chain));
            canvas.line(
                (piece.from, chain),
                (piece.to, chain),
                1.5,
                FAINT,
                Stroke::Dashed,
            );
            canvas.line((piece.from, y), (piece.to, y), 4.0, TEXT, Stroke::Solid);
            if let Some(last) = before.map(|before| level(before.downloaded)) {
                if (last - y).abs() > 0.5 {
                    let end = if last > y { y - 2.0 } else { y + 2.0 };
                    canvas.line(
                        (piece.from, last),
                        (piece.from, end),
                        4.0,
                        TEXT,
                        Stroke::Solid,
                    );
                }
            }
            before = Some(piece);
        }
        self.height_numbers(canvas, &pieces, level);
        canvas.close();
    }

    /// The numbers, where they change.
    fn height_numbers(&self, canvas: &mut Canvas, pieces: &[Piece], level: impl Fn(u32) -> f64) {
        let font = Font::new(13.0, TEXT, Anchor::Start).bold();
        let small = Font::new(11.5, FAINT, Anchor::Start);
        let mut before: Option<&Piece> = None;
        for (number, piece) in pieces.iter().enumerate() {
            // Before the first step there is little room: only a height that this step changes is named.
            let next = pieces.get(1).filter(|_| number == 0);
            if next.is_some_and(|next| next.downloaded == piece.downloaded) {
                continue;
            }
            let rises = before.is_none_or(|before| before.downloaded != piece.downloaded);
            let grows = next.is_none() && before.is_none_or(|before| before.chain != piece.chain);
            let (y, chain) = (level(piece.downloaded), level(piece.chain));
            let room = piece.to - piece.from - 8.0;
            if rises {
                let words = piece.downloaded.to_string();
                let font = if chain < y { font.on_colour() } else { font };
                canvas.text(piece.from + 6.0, y - 6.0, font, &font.fitted(&words, room));
            }
            if grows && (y - chain > APART || (!rises && piece.chain != piece.downloaded)) {
                let words = format!("chain {}", piece.chain);
                canvas.text(
                    piece.from + 6.0,
                    chain - 6.0,
                    small,
                    &small.fitted(&words, room),
                );
            }
            before = Some(piece);
        }
    }
}
