use crate::refusal::numbered;
use crate::view::WINDOW;
use crate::{boundary, Refusal, View};

/// Bytes of a stored map.
pub const MAP_BYTES: usize = 512;

/// Offsets of the fields (docs/LAYOUT.md, "Map of the window").
const DOWNLOADED: usize = 4;
const CHAIN_HEIGHT: usize = 8;
const HEIGHTS: usize = 64;

/// Which sections of the 192 heights after the downloaded height are stored, kept beside a
/// [`RequestKeeper`](crate::RequestKeeper): filled from a view and then told of each section that comes or goes, it says at
/// any time how many heights can be passed, without another view.
///
/// A section is named by its height and its place, 0 to 2, in the row that its height was filled from. Every call is the
/// core's, and one that is refused has changed nothing. Steps neither read nor write the map and go by their own view: a map
/// that was not told of something misleads its shell, but not the keeper. When to fill and when to slide is on the page
/// [`shell`](crate::shell), "The map of the window".
///
/// ```
/// use request_keeper::{ModifierType, Peer, Refusal, RequestKeeper, Section, Settings, Step, Surroundings, View, WindowMap};
/// use std::collections::BTreeSet;
///
/// /// A chain of 500 headers whose blocks have two sections each, and a store of heights and places.
/// fn sections_at(store: &BTreeSet<(u32, u8)>, height: u32) -> Option<Vec<Section>> {
///     let types = [ModifierType::BLOCK_TRANSACTIONS, ModifierType::EXTENSION];
///     let section = |(place, modifier_type)| Section {
///         modifier_type,
///         id: [place; 32],
///         stored: store.contains(&(height, place)),
///     };
///     Some((0..).zip(types).map(section).collect())
/// }
/// const CHAIN_HEIGHT: u32 = 500;
///
/// # fn main() -> Result<(), Refusal> {
/// # let now = Surroundings { peers: &[Peer(4)], ..Surroundings::at(1_000) };
/// # let mut keeper = RequestKeeper::open(Settings::default(), 0, 200)?;
/// # for step in [Step::Start, Step::Pick] {
/// #     let _ = keeper.step(step, &now)?;
/// # }
/// // Downloaded up to 200. Of block 201 the extension is missing, 202 is complete, and of 203 there is nothing.
/// let mut store = BTreeSet::from([(201, 0), (202, 0), (202, 1)]);
/// let view = View::of_window(200, CHAIN_HEIGHT, |height| sections_at(&store, height))?;
/// let mut map = WindowMap::filled(200, CHAIN_HEIGHT, &view)?;
/// assert_eq!(map.passable(), 0);
///
/// // The extension comes in: first the store has it, then the map is told. Two heights can be passed.
/// store.insert((201, 1));
/// map.arrived(201, 1)?;
/// assert_eq!(map.passable(), 2);
///
/// // The step that passes them reads two rows and one more.
/// let view = View::of_complete(200, CHAIN_HEIGHT, |height| sections_at(&store, height))?;
/// assert_eq!(view.rows(), 3);
/// let now = Surroundings { chain_height: CHAIN_HEIGHT, view: &view, ..now };
/// let _ = keeper.step(Step::Received { ids: &[[1; 32]] }, &now)?;
/// assert_eq!(keeper.downloaded_height(), 202);
///
/// // The map slides after it and is filled with the two heights, 393 and 394, that it did not reach.
/// let view = View::of_new_heights(&map, 202, |height| sections_at(&store, height))?;
/// assert_eq!(view.to_string(), "heights 393 to 394");
/// map.slide(202, &view)?;
/// assert_eq!((map.downloaded_height(), map.passable()), (202, 0));
/// # Ok(())
/// # }
/// ```
#[derive(Clone, PartialEq, Eq)]
pub struct WindowMap {
    /// Well formed: nothing but the core writes them.
    bytes: [u8; MAP_BYTES],
}

impl WindowMap {
    /// A map of the 192 heights after the downloaded one. The view has a row for each of them up to the chain height
    /// ([`View::of_window`]), else it is [`Refusal::HeightOutsideView`]; a height above the chain height counts as one whose
    /// header is absent.
    pub fn filled(downloaded: u32, chain_height: u32, view: &View) -> Result<Self, Refusal> {
        let mut map = Self {
            bytes: [0; MAP_BYTES],
        };
        map.fill(downloaded, chain_height, view)?;
        Ok(map)
    }

    /// Fills the whole map afresh, as [`filled`](Self::filled) does, whatever it held: after a reorg, and once a header of
    /// the window or the chain height has changed.
    pub fn fill(&mut self, downloaded: u32, chain_height: u32, view: &View) -> Result<(), Refusal> {
        numbered(boundary::map_fill(
            &mut self.bytes,
            downloaded,
            chain_height,
            view.as_bytes(),
        ))
    }

    /// A section has come into the store; again changes nothing. [`Refusal::Map`] for a height outside the window and for a
    /// place that the height lacks, as one whose header was absent lacks all three.
    pub fn arrived(&mut self, height: u32, place: u8) -> Result<(), Refusal> {
        numbered(boundary::map_arrived(&mut self.bytes, height, place))
    }

    /// The store prunes a section; again changes nothing. Refused as [`arrived`](Self::arrived) is.
    pub fn pruned(&mut self, height: u32, place: u8) -> Result<(), Refusal> {
        numbered(boundary::map_pruned(&mut self.bytes, height, place))
    }

    /// The downloaded height has risen: heights that stay keep their marks, and the new ones are filled from a view that has
    /// a row for each of them up to the map's chain height ([`View::of_new_heights`]), else it is
    /// [`Refusal::HeightOutsideView`]. Downwards it is [`Refusal::Map`]; by nothing, nothing changes.
    pub fn slide(&mut self, downloaded: u32, view: &View) -> Result<(), Refusal> {
        let view = view.as_bytes();
        numbered(boundary::map_slide(&mut self.bytes, downloaded, view))
    }

    /// How many heights can be passed: the run of complete heights after the downloaded one, 0 to 192. A height without
    /// sections is complete, one whose header is absent is not.
    ///
    /// The core has written these bytes or tested them, so it does not refuse them. Should a library of another version do
    /// so, the answer is 0: no height is said to be passable that is not, and a view made too short by it is refused by the
    /// step, as [`Refusal::HeightOutsideView`].
    pub fn passable(&self) -> u32 {
        boundary::map_passable(&self.bytes).heights
    }

    /// The map that [`as_bytes`](Self::as_bytes) stored. Other bytes are [`Refusal::Map`], by the core's own test. It knows
    /// whether they are a map, not whether the store is still what they say.
    pub fn from_bytes(bytes: &[u8]) -> Result<Self, Refusal> {
        numbered(boundary::map_passable(bytes).number)?;
        let bytes = bytes.try_into().map_err(|_| Refusal::Map)?;
        Ok(Self { bytes })
    }

    /// All that the map knows, to be stored and restored by [`from_bytes`](Self::from_bytes).
    pub fn as_bytes(&self) -> &[u8; MAP_BYTES] {
        &self.bytes
    }

    fn field(&self, at: usize) -> u32 {
        let bytes = self.bytes.get(at..).unwrap_or_default();
        u32::from_be_bytes(bytes.first_chunk().copied().unwrap_or_default())
    }

    /// The height that the window comes after.
    pub fn downloaded_height(&self) -> u32 {
        self.field(DOWNLOADED)
    }

    /// The chain height that the map was filled with.
    pub fn chain_height(&self) -> u32 {
        self.field(CHAIN_HEIGHT)
    }

    /// Whether a height is in the window: one of the 192 after the downloaded height. What comes or goes elsewhere is of no
    /// concern to the map.
    pub fn has_height(&self, height: u32) -> bool {
        let after = height.checked_sub(self.downloaded_height());
        after.is_some_and(|after| (1..=WINDOW).contains(&after))
    }

    /// The bytes of the heights up to the chain height; the others are those of absent headers.
    pub(crate) fn height_bytes(&self) -> &[u8] {
        let heights = self.chain_height().saturating_sub(self.downloaded_height());
        let count = heights.min(WINDOW) as usize;
        self.bytes.get(HEIGHTS..HEIGHTS + count).unwrap_or_default()
    }
}
