//! A map kept in plain Rust, by the words of document 02's F-1, and written as docs/LAYOUT.md has it.

use request_keeper::{ModifierType, Refusal, Section, View, MAP_BYTES};

pub const WINDOW: u64 = 192;

/// A height: its header is absent, or which of its sections are stored.
pub type Height = Option<Vec<bool>>;

/// The rows of a view.
#[derive(Debug, Clone)]
pub struct Rows {
    pub first: u32,
    pub heights: Vec<Height>,
}

pub fn sections(stored: &[bool]) -> Vec<Section> {
    let section = |stored: &bool| Section {
        modifier_type: ModifierType::EXTENSION,
        id: [7; 32],
        stored: *stored,
    };
    stored.iter().map(section).collect()
}

impl Rows {
    fn at(&self, height: u64) -> Option<&Height> {
        let index = height.checked_sub(u64::from(self.first))?;
        self.heights.get(usize::try_from(index).ok()?)
    }

    /// The row of a height that is to be filled: `None` above the chain height, refused where it is missing.
    fn filling(&self, height: u64, chain_height: u32) -> Result<Height, Refusal> {
        if height > u64::from(chain_height) {
            return Ok(None);
        }
        self.at(height).cloned().ok_or(Refusal::HeightOutsideView)
    }

    pub fn view(&self) -> View {
        let mut view = View::from_height(self.first);
        for height in &self.heights {
            match height {
                Some(stored) => view.push_header(&sections(stored)),
                None => view.push_absent(),
            }
            .expect("a row that can be");
        }
        view
    }
}

#[derive(Debug, Clone, PartialEq)]
pub struct Account {
    pub downloaded: u32,
    pub chain_height: u32,
    pub heights: Vec<Height>,
}

impl Account {
    pub fn filled(downloaded: u32, chain_height: u32, rows: &Rows) -> Result<Self, Refusal> {
        let below = u64::from(downloaded);
        let heights: Result<_, _> = (below + 1..=below + WINDOW)
            .map(|height| rows.filling(height, chain_height))
            .collect();
        Ok(Self {
            downloaded,
            chain_height,
            heights: heights?,
        })
    }

    pub fn change(&mut self, height: u32, place: u8, stored: bool) -> Result<(), Refusal> {
        let index = u64::from(height).checked_sub(u64::from(self.downloaded) + 1);
        let known = index.and_then(|index| self.heights.get_mut(index as usize));
        let places = known.and_then(Option::as_mut).ok_or(Refusal::Map)?;
        *places.get_mut(usize::from(place)).ok_or(Refusal::Map)? = stored;
        Ok(())
    }

    pub fn slide(&mut self, downloaded: u32, rows: &Rows) -> Result<(), Refusal> {
        let risen = downloaded
            .checked_sub(self.downloaded)
            .ok_or(Refusal::Map)?;
        let new = u64::from(risen).min(WINDOW);
        let last = u64::from(downloaded) + WINDOW;
        let filled: Result<Vec<_>, _> = (last - new + 1..=last)
            .map(|height| rows.filling(height, self.chain_height))
            .collect();
        self.heights.extend(filled?);
        self.heights.drain(..new as usize);
        self.downloaded = downloaded;
        Ok(())
    }

    /// Rule 5 on the heights of the map.
    pub fn passable(&self) -> u32 {
        let complete = |height: &&Height| height.as_ref().is_some_and(|all| !all.contains(&false));
        self.heights.iter().take_while(complete).count() as u32
    }

    pub fn bytes(&self) -> [u8; MAP_BYTES] {
        let mut bytes = [0; MAP_BYTES];
        bytes[..4].copy_from_slice(b"EDM\x01");
        bytes[4..8].copy_from_slice(&self.downloaded.to_be_bytes());
        bytes[8..12].copy_from_slice(&self.chain_height.to_be_bytes());
        for (index, height) in self.heights.iter().enumerate() {
            let Some(stored) = height else {
                bytes[64 + index] = 128;
                continue;
            };
            bytes[64 + index] = 16 * stored.len() as u8;
            for (place, stored) in stored.iter().enumerate() {
                bytes[64 + index] |= u8::from(*stored) << place;
            }
            if !stored.contains(&false) {
                // High byte first: the lowest heights of a word are in its last byte.
                bytes[16 + 8 * (index / 64) + 7 - index % 64 / 8] |= 1 << (index % 8);
            }
        }
        bytes
    }

    /// `None` for bytes that no account is written as.
    pub fn read(bytes: &[u8]) -> Option<Self> {
        let number = |at: usize| Some(u32::from_be_bytes(*bytes.get(at..)?.first_chunk()?));
        let height = |byte: &u8| {
            let stored = |place| byte >> place & 1 == 1;
            (*byte < 128).then(|| (0..byte / 16).map(stored).collect())
        };
        let account = Self {
            downloaded: number(4)?,
            chain_height: number(8)?,
            heights: bytes.get(64..256)?.iter().map(height).collect(),
        };
        let most = account.chain_height.saturating_sub(account.downloaded);
        let above = account.heights.iter().skip(most as usize);
        let known = above.clone().all(Option::is_none)
            && account.heights.iter().flatten().all(|all| all.len() <= 3);
        (known && account.bytes() == bytes).then_some(account)
    }
}
