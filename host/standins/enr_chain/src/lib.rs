//! Stand-in for `enr_chain`. The type numbers are those of Ergo's protocol (document 01); a header carries the sections
//! that its view row lists.

use std::cell::RefCell;

pub const TRANSACTION_TYPE_ID: u8 = 2;
pub const HEADER_TYPE_ID: u8 = 101;
pub const BLOCK_TRANSACTIONS_TYPE_ID: u8 = 102;
pub const AD_PROOFS_TYPE_ID: u8 = 104;
pub const EXTENSION_TYPE_ID: u8 = 108;

#[derive(Debug, Clone, Copy, PartialEq, Eq)]
pub struct Digest32(pub [u8; 32]);

#[derive(Debug, Clone, Copy, PartialEq, Eq)]
pub struct BlockId(pub Digest32);

#[derive(Debug, Clone, PartialEq, Eq)]
pub struct Header {
    pub id: BlockId,
    pub height: u32,
    pub state_root: [u8; 33],
    pub extension_root: Digest32,
    /// Type, id and whether it is stored, in the order of the view row.
    pub sections: Vec<(u8, [u8; 32], bool)>,
}

impl Header {
    /// A header of which only the height and the sections matter.
    pub fn with_sections(height: u32, sections: Vec<(u8, [u8; 32], bool)>) -> Self {
        Self {
            id: BlockId(Digest32([0; 32])),
            height,
            state_root: [0; 33],
            extension_root: Digest32([0; 32]),
            sections,
        }
    }
}

#[derive(Debug, Clone, Copy, PartialEq, Eq)]
pub enum StateType {
    Utxo,
    Digest,
    Light,
}

#[derive(Debug, Clone, PartialEq, Eq)]
pub enum SyncInfo {
    V1 { header_ids: Vec<BlockId> },
    V2 { headers: Vec<Header> },
}

#[derive(Debug, Clone, Copy, PartialEq, Eq)]
pub struct ChainError;

thread_local! {
    /// The places whose stored flags are asked for next, last one first.
    static ASKED: RefCell<Vec<(u8, [u8; 32], bool)>> = const { RefCell::new(Vec::new()) };
}

/// The header's sections. Rules 4 and 5 ask for each place in turn, so the flags are laid out for `next_flag`.
pub fn required_section_ids(header: &Header, _: StateType) -> Vec<(u8, [u8; 32])> {
    ASKED.with(|asked| {
        let mut asked = asked.borrow_mut();
        asked.clear();
        asked.extend(header.sections.iter().rev());
    });
    header.sections.iter().map(|s| (s.0, s.1)).collect()
}

/// The own flag of the next place; `None` if the question is not about that place.
pub fn next_flag(type_id: u8, id: &[u8; 32]) -> Option<bool> {
    let place = ASKED.with(|asked| asked.borrow_mut().pop())?;
    (place.0 == type_id && place.1 == *id).then_some(place.2)
}

/// Named by the validation sweep, which does nothing here.
pub fn section_id(_: u8, _: &[u8; 32], _: &[u8; 32]) -> [u8; 32] {
    [0; 32]
}

/// Named by the validation sweep, which does nothing here.
pub fn parse_extension_bytes(_: &[u8]) -> Result<((), Vec<u8>), ChainError> {
    Err(ChainError)
}

/// Named by the validation sweep, which does nothing here.
pub fn extract_disabling_rules_from_kv(_: &[u8]) -> Vec<u8> {
    Vec::new()
}
