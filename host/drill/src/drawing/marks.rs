//! The mark for each fate, and its words.

use super::canvas::{Canvas, Stroke, AMBER, BACKGROUND, FAINT, GREEN, RED};
use crate::fates::{Aim, Became, NotAsked};
use crate::scenario::Names;
use crate::text::grouped;
use request_keeper::Peer;

/// The shapes, each with its words in the legend.
#[derive(Debug, Clone, Copy, PartialEq, Eq)]
pub enum Mark {
    Request,
    Check,
    Retry,
    HeldRetry,
    Delivery,
    GivenUp,
    Forgotten,
    Evicted,
    Purged,
    NotAsked,
}

pub const LEGEND: [(Mark, &str); 10] = [
    (Mark::Request, "request, to the peer of this colour"),
    (Mark::Check, "check: not expired, with its age"),
    (Mark::Retry, "retry, to the peer of this colour"),
    (Mark::HeldRetry, "retry behind a shut gate: not sent"),
    (Mark::Delivery, "delivery"),
    (Mark::GivenUp, "given up"),
    (Mark::Forgotten, "forgotten (a transaction)"),
    (Mark::Evicted, "evicted, asked for at the next check"),
    (Mark::Purged, "purged: a reorg, or its peer is lost"),
    (Mark::NotAsked, "not asked for"),
];

/// What is drawn for a fate: the mark, the peer that colours it, the words above it and below it.
pub struct Drawn {
    pub mark: Mark,
    pub peer: Option<Peer>,
    pub above: String,
    pub below: String,
}

/// `None` for what leaves no mark.
pub fn drawn(became: &Became, names: &Names) -> Option<Drawn> {
    let drawn = |mark, peer: Option<Peer>, above: String| Drawn {
        mark,
        peer,
        above,
        below: String::new(),
    };
    Some(match became {
        Became::Asked { of, .. } => drawn(Mark::Request, Some(*of), names.show_peer(*of)),
        Became::NotAsked(why) => drawn(Mark::NotAsked, None, hindrance(*why).to_string()),
        Became::Waits { peer, age } => drawn(Mark::Check, Some(*peer), grouped(*age)),
        Became::Retried(retry) if retry.aim == Aim::GateShut => Drawn {
            mark: Mark::HeldRetry,
            peer: Some(retry.to),
            above: "not sent".to_string(),
            below: format!("checks {}", retry.checks),
        },
        Became::Retried(retry) => Drawn {
            mark: Mark::Retry,
            peer: Some(retry.to),
            above: format!("\u{2192} {}", names.show_peer(retry.to)),
            below: format!("checks {}", retry.checks),
        },
        Became::GivenUp { checks, .. } => Drawn {
            mark: Mark::GivenUp,
            peer: None,
            above: "given up".to_string(),
            below: format!("checks {checks}"),
        },
        Became::Forgotten { .. } => drawn(Mark::Forgotten, None, "forgotten".to_string()),
        Became::Delivered { .. } => drawn(Mark::Delivery, None, "delivered".to_string()),
        Became::NotOnOrder => drawn(Mark::Delivery, None, "unasked".to_string()),
        Became::Evicted { .. } => drawn(Mark::Evicted, None, "evicted".to_string()),
        Became::Purged { .. } | Became::Orphaned { .. } => {
            drawn(Mark::Purged, None, "purged".to_string())
        }
        Became::Left { .. } => return None,
    })
}

fn hindrance(why: NotAsked) -> &'static str {
    match why {
        NotAsked::GateShut => "gate shut",
        NotAsked::NoPeer => "no peer",
        NotAsked::Pending(_) => "on order",
        NotAsked::Stored => "stored",
        NotAsked::Type(_) | NotAsked::Unexplained => "not asked",
        NotAsked::Transaction => "transaction",
    }
}

impl Mark {
    /// Draws the mark; `colour` is its peer's, for the marks that have one.
    pub fn draw(self, canvas: &mut Canvas, x: f64, y: f64, colour: &str) {
        const CROSS: [[(f64, f64); 2]; 2] =
            [[(-5.0, -5.0), (5.0, 5.0)], [(-5.0, 5.0), (5.0, -5.0)]];
        match self {
            Self::Request => canvas.circle(x, y, 6.5, colour, BACKGROUND),
            Self::Check => canvas.line((x, y - 7.0), (x, y + 7.0), 2.5, colour, Stroke::Solid),
            Self::Retry => {
                canvas.circle(x, y, 8.0, colour, BACKGROUND);
                let head = [(-4.0, 0.0), (4.0, 0.0), (1.0, -3.0), (4.0, 0.0), (1.0, 3.0)];
                canvas.path(x, y, &head, "none", BACKGROUND);
            }
            Self::HeldRetry => canvas.circle(x, y, 7.0, BACKGROUND, colour),
            Self::Delivery => {
                let tick = [(-4.0, 0.0), (-1.0, 3.5), (4.5, -3.5)];
                canvas.circle(x, y, 8.0, GREEN, BACKGROUND);
                canvas.path(x, y, &tick, "none", BACKGROUND);
            }
            Self::GivenUp | Self::Forgotten => {
                let colour = if self == Self::GivenUp { RED } else { FAINT };
                canvas.circle(x, y, 9.0, BACKGROUND, BACKGROUND);
                for stroke in &CROSS {
                    canvas.path(x, y, stroke, "none", colour);
                }
            }
            Self::Evicted => {
                canvas.path(
                    x,
                    y,
                    &[(-7.0, -5.0), (7.0, -5.0), (0.0, 7.0)],
                    AMBER,
                    BACKGROUND,
                );
            }
            Self::Purged => {
                let diamond = [(0.0, -7.5), (6.0, 0.0), (0.0, 7.5), (-6.0, 0.0)];
                canvas.path(x, y, &diamond, "#39424e", BACKGROUND);
            }
            Self::NotAsked => {
                canvas.circle(x, y, 6.0, BACKGROUND, FAINT);
                canvas.path(x, y, &[(-4.0, 4.0), (4.0, -4.0)], "none", FAINT);
            }
        }
    }
}
