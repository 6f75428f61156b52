use std::error::Error;
use std::fmt::{self, Display, Formatter};

/// Why a call was turned back (document 01, "Where a step can be turned back", and document 02). Nothing has changed.
///
/// The first that applies is given, in this order; of the map's calls, whose only numbers are 12, 8 and 9, in that one.
/// What a shell does about each is on the page [`shell`](crate::shell), "Refusals".
#[derive(Debug, Clone, Copy, PartialEq, Eq, Hash)]
#[non_exhaustive]
pub enum Refusal {
    /// 1: the state is not 65,536 bytes. Only bytes to restore from can have another length.
    StateLength,
    /// 2: the bytes to restore from are no image that a keeper has left.
    MalformedImage,
    /// 3: the command area is under 65,536 bytes. That of a [`RequestKeeper`](crate::RequestKeeper) is not.
    CommandLength,
    /// 4: the clock is before that of the last finished step or of the opening.
    ClockWentBack,
    /// 5: the step is not one of this mode, or a send failure does not follow an entry that sent.
    WrongStep,
    /// 6: over 1,024 ids or stored pairs, or over 400 continuation ids.
    Lists,
    /// 7: over 128 peers.
    Peers,
    /// 8: a row of over three sections, or above height 2^32 − 1. [`View`](crate::View) makes none.
    View,
    /// 9: the step would read a height, up to the chain height, that the view has no row for; or the view of a map's fill
    /// or slide lacks a height to be filled, up to the chain height.
    HeightOutsideView,
    /// 10: more than 1,024 requests and evicted ids after the step.
    TooManyTracked,
    /// 11: a 257th stalled peer.
    TooManyStalled,
    /// 12: of a [`WindowMap`](crate::WindowMap), a height outside its window, a place that the height lacks, a slide
    /// downwards, or bytes to restore from that are no map. Tested before 8 and 9.
    Map,
    /// A number that this crate does not know: the library linked is not of its version.
    Unknown(u32),
}

impl Refusal {
    /// The refusal of a number; 0 is a finished step.
    pub(crate) fn of(number: u32) -> Option<Self> {
        Some(match number {
            0 => return None,
            1 => Self::StateLength,
            2 => Self::MalformedImage,
            3 => Self::CommandLength,
            4 => Self::ClockWentBack,
            5 => Self::WrongStep,
            6 => Self::Lists,
            7 => Self::Peers,
            8 => Self::View,
            9 => Self::HeightOutsideView,
            10 => Self::TooManyTracked,
            11 => Self::TooManyStalled,
            12 => Self::Map,
            other => Self::Unknown(other),
        })
    }

    /// The number of documents 01 and 02.
    pub fn number(self) -> u32 {
        match self {
            Self::StateLength => 1,
            Self::MalformedImage => 2,
            Self::CommandLength => 3,
            Self::ClockWentBack => 4,
            Self::WrongStep => 5,
            Self::Lists => 6,
            Self::Peers => 7,
            Self::View => 8,
            Self::HeightOutsideView => 9,
            Self::TooManyTracked => 10,
            Self::TooManyStalled => 11,
            Self::Map => 12,
            Self::Unknown(number) => number,
        }
    }

    /// The documents' words: what the number is given for, exactly.
    pub fn words(self) -> &'static str {
        match self {
            Self::StateLength => "state not 65,536 bytes",
            Self::MalformedImage => {
                "image malformed: mark, version, mode, flags, counts, order of ids, a peer stalled twice, a stamp, \
                 last progress or last send after the last clock, checks not below demand 3's M, unused bytes not zero"
            }
            Self::CommandLength => "commands under 65,536 bytes",
            Self::ClockWentBack => "clock before the last finished step's or the opening's",
            Self::WrongStep => {
                "step unknown or not of this mode, a flag not 0 or 1, or a send failure after anything but an entry \
                 that sent"
            }
            Self::Lists => "id or stored list of bad length, order or size",
            Self::Peers => "peer list of bad length or size",
            Self::View => "malformed row or length",
            Self::HeightOutsideView => {
                "a rule would read a height, up to chain height, outside it, or it lacks such a height to be filled"
            }
            Self::TooManyTracked => "pending + evicted after the step would pass 1,024",
            Self::TooManyStalled => "a 257th stalled peer",
            Self::Map => {
                "map of another length or malformed, a height outside its window, a place that the height lacks, or \
                 a slide downwards"
            }
            Self::Unknown(_) => "a number that is not the documents'",
        }
    }
}

/// What a call's number says; 0 is none.
pub(crate) fn numbered(number: u32) -> Result<(), Refusal> {
    match Refusal::of(number) {
        None => Ok(()),
        Some(refusal) => Err(refusal),
    }
}

impl Display for Refusal {
    fn fmt(&self, out: &mut Formatter<'_>) -> fmt::Result {
        write!(out, "refused as {}: {}", self.number(), self.words())
    }
}

impl Error for Refusal {}

#[cfg(test)]
mod tests {
    use super::{numbered, Refusal};

    #[test]
    fn each_number_has_its_refusal() {
        assert_eq!(Refusal::of(0), None);
        for number in 1..=13 {
            let refusal = Refusal::of(number);
            assert_eq!(refusal.map(Refusal::number), Some(number));
            let known = !matches!(refusal, Some(Refusal::Unknown(_)));
            assert_eq!(known, number <= 12);
        }
        assert_eq!(numbered(12), Err(Refusal::Map));
    }
}
