/// Length of a map of the window.
pub const MAP_BYTES: usize = 512;

/// A call that writes the map (F-1), with its numbers and the view's bytes as they cross the boundary.
#[derive(Debug, Clone, PartialEq, Eq)]
pub enum MapCall {
    /// The whole map afresh.
    Fill {
        downloaded: u32,
        chain: u32,
        view: Vec<u8>,
    },
    /// A section has come in.
    Arrived { height: u32, place: u8 },
    /// The store has let a section go.
    Pruned { height: u32, place: u8 },
    /// The downloaded height has risen.
    Slide { downloaded: u32, view: Vec<u8> },
}

impl MapCall {
    pub const NAMES: [&'static str; 4] = ["fill", "arrived", "pruned", "slide"];

    /// Its place among the four.
    pub fn kind(&self) -> usize {
        match self {
            MapCall::Fill { .. } => 0,
            MapCall::Arrived { .. } => 1,
            MapCall::Pruned { .. } => 2,
            MapCall::Slide { .. } => 3,
        }
    }

    pub fn name(&self) -> &'static str {
        Self::NAMES[self.kind()]
    }
}
