use crate::surroundings::PAIR;
use crate::{Id, ModifierType, Refusal, WindowMap};

const FIRST: usize = 4;
/// A place of a row: type, id, and whether it is stored.
pub(crate) const PLACE: usize = PAIR + 1;
const ROW: usize = 1 + MOST_SECTIONS * PLACE;
pub(crate) const ABSENT: u8 = 255;
const MOST_SECTIONS: usize = 3;
/// Heights that are requested at a time, and that a map has.
pub(crate) const WINDOW: u32 = 192;

/// A section that a block needs.
#[derive(Clone, Copy, PartialEq, Eq)]
pub struct Section {
    pub modifier_type: ModifierType,
    pub id: Id,
    /// Whether the store has it.
    pub stored: bool,
}

/// What chain and store say of the heights from a first one on. Rows are added for one height after another.
///
/// A view has no malformed row: what a row can't say is turned back as [`Refusal::View`] where it is added, and the view
/// is left as it was.
///
/// ```
/// use request_keeper::{ModifierType, Refusal, Section, View};
///
/// # fn main() -> Result<(), Refusal> {
/// let mut view = View::from_height(401);
/// let section = Section { modifier_type: ModifierType::BLOCK_TRANSACTIONS, id: [0xcc; 32], stored: false };
/// view.push_header(&[section])?;
/// view.push_absent()?;
/// assert_eq!(view.push_header(&[section; 4]), Err(Refusal::View));
/// assert_eq!(view.to_string(), "heights 401 to 402");
/// # Ok(())
/// # }
/// ```
#[derive(Clone, PartialEq, Eq, Default)]
pub struct View {
    /// Empty, or the first height and the rows.
    bytes: Vec<u8>,
}

impl View {
    /// No rows: enough for a step that reads no height.
    pub const EMPTY: Self = Self { bytes: Vec::new() };

    /// A view without rows, whose first row will be that of this height.
    pub fn from_height(first: u32) -> Self {
        Self {
            bytes: first.to_be_bytes().to_vec(),
        }
    }

    /// The rows that a step can read when it starts from a downloaded height: over the complete heights to the first
    /// that is not, 192 heights from there, not beyond the chain height, and to the first absent header. The closure
    /// gives a height's sections, at most three, or `None` if its header is absent.
    ///
    /// So it knows how far document 01's rules 5 (complete heights) and 4 (the window) read, and nothing else of them.
    /// That decides nothing: the core reads from any longer view what it reads from this one and answers the same, and a
    /// view that is too short it refuses as [`Refusal::HeightOutsideView`], changing nothing. A node may lend more.
    pub fn of_chain(
        downloaded: u32,
        chain_height: u32,
        mut sections_at: impl FnMut(u32) -> Option<Vec<Section>>,
    ) -> Result<Self, Refusal> {
        let mut view = Self::from_height(downloaded.saturating_add(1));
        let mut complete = true;
        let mut left = WINDOW;
        for height in (downloaded..chain_height).map(|below| below + 1) {
            let Some(sections) = sections_at(height) else {
                view.push_absent()?;
                break;
            };
            view.push_header(&sections)?;
            complete = complete && sections.iter().all(|section| section.stored);
            left -= u32::from(!complete);
            if left == 0 {
                break;
            }
        }
        Ok(view)
    }

    /// The rows that a step reads which passes complete heights and looks at no window (rule 5 without rule 4): start,
    /// received ids, a check in syncing, a scheduled tick in synced. They go over the complete heights after the downloaded
    /// one to the first that is not, not beyond the chain height.
    ///
    /// How many that is, a [`WindowMap`] says beforehand: [`passable`](WindowMap::passable) and one more, if the run of
    /// complete heights ends in its window.
    pub fn of_complete(
        downloaded: u32,
        chain_height: u32,
        mut sections_at: impl FnMut(u32) -> Option<Vec<Section>>,
    ) -> Result<Self, Refusal> {
        let mut view = Self::from_height(downloaded.saturating_add(1));
        for height in (downloaded..chain_height).map(|below| below + 1) {
            if !view.push(sections_at(height))? {
                break;
            }
        }
        Ok(view)
    }

    /// The rows that a map is filled from ([`WindowMap::filled`]): the 192 heights after the downloaded one, not beyond the
    /// chain height, and unlike a step's also those behind an absent header.
    pub fn of_window(
        downloaded: u32,
        chain_height: u32,
        sections_at: impl FnMut(u32) -> Option<Vec<Section>>,
    ) -> Result<Self, Refusal> {
        let last = chain_height.min(downloaded.saturating_add(WINDOW));
        Self::of_heights(downloaded, last, sections_at)
    }

    /// The rows that a map needs to slide up to a downloaded height ([`WindowMap::slide`]): the heights of the new window
    /// that the map does not reach yet, not beyond its chain height, also those behind an absent header.
    pub fn of_new_heights(
        map: &WindowMap,
        downloaded: u32,
        sections_at: impl FnMut(u32) -> Option<Vec<Section>>,
    ) -> Result<Self, Refusal> {
        let reached = map.downloaded_height().saturating_add(WINDOW);
        let last = map.chain_height().min(downloaded.saturating_add(WINDOW));
        Self::of_heights(reached.max(downloaded), last, sections_at)
    }

    /// A row for each height above one up to another.
    fn of_heights(
        below: u32,
        last: u32,
        mut sections_at: impl FnMut(u32) -> Option<Vec<Section>>,
    ) -> Result<Self, Refusal> {
        let mut view = Self::from_height(below.saturating_add(1));
        for height in (below..last).map(|below| below + 1) {
            view.push(sections_at(height))?;
        }
        Ok(view)
    }

    /// The next height's row; whether the height is complete.
    fn push(&mut self, sections: Option<Vec<Section>>) -> Result<bool, Refusal> {
        let Some(sections) = sections else {
            return self.push_absent().map(|()| false);
        };
        self.push_header(&sections)?;
        Ok(sections.iter().all(|section| section.stored))
    }

    /// The next height's header is absent. Refused above height 2^32 − 1.
    pub fn push_absent(&mut self) -> Result<(), Refusal> {
        self.push_row(ABSENT, &[])
    }

    /// The next height's header is present, and its block needs these sections. Refused for more than three, and above
    /// height 2^32 − 1.
    pub fn push_header(&mut self, sections: &[Section]) -> Result<(), Refusal> {
        match sections.len() {
            0..=MOST_SECTIONS => self.push_row(sections.len() as u8, sections),
            _ => Err(Refusal::View),
        }
    }

    fn push_row(&mut self, count: u8, sections: &[Section]) -> Result<(), Refusal> {
        let room = u32::MAX - self.first();
        if u32::try_from(self.rows()).map_or(true, |rows| rows > room) {
            return Err(Refusal::View);
        }
        if self.bytes.is_empty() {
            self.bytes.extend_from_slice(&0_u32.to_be_bytes());
        }
        let end = self.bytes.len() + ROW;
        self.bytes.push(count);
        for section in sections {
            self.bytes.extend_from_slice(&section.modifier_type.bytes());
            self.bytes.extend_from_slice(&section.id);
            self.bytes.push(u8::from(section.stored));
        }
        self.bytes.resize(end, 0);
        Ok(())
    }

    /// The height of the first row.
    pub(crate) fn first(&self) -> u32 {
        self.bytes
            .first_chunk()
            .map_or(0, |first| u32::from_be_bytes(*first))
    }

    /// The rows' bytes, one after another.
    pub(crate) fn row_bytes(&self) -> impl Iterator<Item = &[u8]> {
        self.bytes.get(FIRST..).unwrap_or_default().chunks(ROW)
    }

    /// How many heights have a row.
    pub fn rows(&self) -> usize {
        self.bytes.len() / ROW
    }

    /// The bytes lent to a step.
    pub fn as_bytes(&self) -> &[u8] {
        if self.bytes.is_empty() {
            return &[0; 4];
        }
        &self.bytes
    }
}

#[cfg(test)]
mod tests {
    use super::View;

    #[test]
    fn rows_are_counted() {
        let mut view = View::from_height(7);
        for rows in 0..50 {
            assert_eq!(view.rows(), rows);
            assert_eq!(view.as_bytes().len(), 4 + 106 * rows);
            assert_eq!(view.push_absent(), Ok(()));
        }
        assert_eq!(View::EMPTY.rows(), 0);
    }
}
