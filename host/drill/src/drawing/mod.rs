//! A played scenario as a drawing, in pages: a column a step along a time axis, a lane for the downloaded height, and one
//! lane an id, with a bar while it is on order, coloured by its peer.

mod axis;
mod canvas;
mod heads;
mod heights;
mod lanes;
mod legend;
mod marks;
mod pages;
mod remarks;
mod sheet;

use crate::play::{Moment, Played};
use axis::Span;
use canvas::{Canvas, TEXT};
use pages::Page;
pub use pages::TooLong;
use request_keeper::Peer;
use sheet::Sheet;

/// The lanes' names stand left of this.
const LEFT: f64 = 150.0;

const PEER_COLOURS: [&str; 6] = [
    "#1f5fa8", "#a8326e", "#0d7f7a", "#6b3fa0", "#7a5230", "#5f6f17",
];

/// A drawing, cut into pages.
pub struct Drawing<'a> {
    played: &'a Played,
    moments: Vec<&'a Moment>,
    /// Before each step, and behind the last.
    remarks: Vec<Vec<String>>,
    spans: Vec<Span>,
    /// In the order in which they are first asked.
    peers: Vec<Peer>,
    pages: Vec<Page>,
}

impl<'a> Drawing<'a> {
    /// Lays out what was played.
    pub fn of(played: &'a Played) -> Result<Self, TooLong> {
        let moments: Vec<&Moment> = played.moments().collect();
        let spans = axis::spans(&moments);
        let pages = pages::pages(&moments, &spans)?;
        let mut peers = Vec::new();
        for moment in &moments {
            for request in moment.after.pending.values() {
                if !peers.contains(&request.peer) {
                    peers.push(request.peer);
                }
            }
        }
        Ok(Self {
            played,
            moments,
            remarks: remarks::remarks(played),
            spans,
            peers,
            pages,
        })
    }

    /// How many pages it has.
    pub fn pages(&self) -> usize {
        self.pages.len()
    }

    /// A page as a file; the first is 0. Empty if there is no such page.
    pub fn svg(&self, page: usize) -> String {
        let Some(sheet) = Sheet::of(self, page) else {
            return String::new();
        };
        let mut canvas = Canvas::default();
        let (width, height) = sheet.draw(&mut canvas);
        canvas.finished(width, height)
    }

    fn colour(&self, peer: Peer) -> &'static str {
        let place = self.peers.iter().position(|known| *known == peer);
        let colour = PEER_COLOURS.get(place.unwrap_or_default() % PEER_COLOURS.len());
        colour.copied().unwrap_or(TEXT)
    }
}

#[cfg(test)]
mod tests;
