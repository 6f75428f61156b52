//! Names for ids and peers, and how both are shown.

use super::words::bound;
use crate::text::grouped;
use request_keeper::{Id, ModifierType, Peer};
use std::collections::BTreeMap;

/// More than any list of the core takes, so that its refusals can be drilled.
pub const LONGEST_LIST: usize = 2_000;
/// Words that mean something else where a name could stand.
const TAKEN: [&str; 2] = ["none", "absent"];
const LONGEST_NAME: usize = 32;

/// The names of a scenario.
#[derive(Debug, Clone, Default)]
pub struct Names {
    peers: BTreeMap<String, Peer>,
    peer_names: BTreeMap<Peer, String>,
    ids: BTreeMap<String, Id>,
    id_names: BTreeMap<Id, String>,
}

/// A name begins with a letter and goes on with letters, digits, `-` and `_`.
fn well_formed(name: &str) -> Result<(), String> {
    let letters = name
        .chars()
        .all(|c| c.is_ascii_alphanumeric() || matches!(c, '-' | '_'));
    let fits = letters
        && name.starts_with(|first: char| first.is_ascii_alphabetic())
        && name.len() <= LONGEST_NAME
        && !TAKEN.contains(&name);
    if fits {
        return Ok(());
    }
    Err(format!(
        "`{name}` can't be a name: a letter, then letters, digits, `-` and `_`, at most {LONGEST_NAME}, and not `none` or \
         `absent`"
    ))
}

/// The bytes of the name, then zeros: ids rise as names do.
fn id_of_name(name: &str) -> Id {
    let mut id = [0; 32];
    for (place, byte) in id.iter_mut().zip(name.bytes()) {
        *place = byte;
    }
    id
}

/// 64 hex digits.
fn id_of_hex(word: &str) -> Option<Id> {
    if word.len() != 64 || !word.bytes().all(|byte| byte.is_ascii_hexdigit()) {
        return None;
    }
    let mut id = [0; 32];
    for (at, place) in id.iter_mut().enumerate() {
        let digits = word.get(2 * at..2 * at + 2)?;
        *place = u8::from_str_radix(digits, 16).ok()?;
    }
    Some(id)
}

/// `a01..a99` as its words; any other word as itself.
pub fn expanded(word: &str) -> Result<Vec<String>, String> {
    let Some((first, last)) = word.split_once("..") else {
        return Ok(vec![word.to_string()]);
    };
    let wrong = || {
        format!(
            "`{word}` is no range: expected the same letters and rising numbers at both ends, at most {}, as `a1..a9`",
            grouped(LONGEST_LIST as u64)
        )
    };
    let stem = first.trim_end_matches(|c: char| c.is_ascii_digit());
    let digits = first.get(stem.len()..).unwrap_or_default();
    let end = last.strip_prefix(stem).ok_or_else(wrong)?;
    let low: u64 = digits.parse().map_err(|_| wrong())?;
    let high: u64 = end.parse().map_err(|_| wrong())?;
    if low > high || high - low >= LONGEST_LIST as u64 {
        return Err(wrong());
    }
    let width = digits.len();
    let name = |number: u64| format!("{stem}{number:0width$}");
    Ok((low..=high).map(name).collect())
}

impl Names {
    /// `ids NAME..` and the sections of a `header` line.
    pub fn introduce(&mut self, name: &str) -> Result<Id, String> {
        if let Some(id) = id_of_hex(name) {
            return Ok(id);
        }
        well_formed(name)?;
        let id = *self
            .ids
            .entry(name.to_string())
            .or_insert_with(|| id_of_name(name));
        self.id_names.entry(id).or_insert_with(|| name.to_string());
        Ok(id)
    }

    /// `id NAME HEX`
    pub fn name_id(&mut self, name: &str, hex: &str) -> Result<(), String> {
        well_formed(name)?;
        let id = id_of_hex(hex)
            .ok_or_else(|| format!("`{hex}` is not an id: expected 64 hex digits"))?;
        if let Some(other) = self.id_names.get(&id) {
            return Err(format!("this id has the name `{other}` already"));
        }
        if self.ids.insert(name.to_string(), id).is_some() {
            return Err(format!("`{name}` is the name of another id already"));
        }
        self.id_names.insert(id, name.to_string());
        Ok(())
    }

    /// `peer NAME NUMBER`
    pub fn name_peer(&mut self, name: &str, peer: Peer) -> Result<(), String> {
        well_formed(name)?;
        if let Some(other) = self.peer_names.get(&peer) {
            return Err(format!("peer {} has the name `{other}` already", peer.0));
        }
        if self.peers.insert(name.to_string(), peer).is_some() {
            return Err(format!("`{name}` is the name of another peer already"));
        }
        self.peer_names.insert(peer, name.to_string());
        Ok(())
    }

    /// An id by its name or its 64 hex digits.
    pub fn id(&self, word: &str) -> Result<Id, String> {
        let id = self.ids.get(word).copied().or_else(|| id_of_hex(word));
        id.ok_or_else(|| {
            format!(
                "no id has the name `{word}`: introduce it with `ids {word}` or in a `header` line"
            )
        })
    }

    /// A peer by its name or its number.
    pub fn peer(&self, word: &str) -> Result<Peer, String> {
        let number = || super::words::number(word).map(Peer);
        let peer = self.peers.get(word).copied().or_else(number);
        peer.ok_or_else(|| {
            let bound = bound::<u64>(word);
            format!(
                "no peer has the name `{word}`: introduce it with `peer {word} NUMBER`, or write a peer's number{bound}"
            )
        })
    }

    /// An id as the scenario calls it; the first digits of one without a name.
    pub fn show_id(&self, id: &Id) -> String {
        if let Some(name) = self.id_names.get(id) {
            return name.clone();
        }
        let [first, second, third, fourth, ..] = id;
        format!("{first:02x}{second:02x}{third:02x}{fourth:02x}~")
    }

    /// A peer as the scenario calls it, or its number.
    pub fn show_peer(&self, peer: Peer) -> String {
        let name = self.peer_names.get(&peer);
        name.cloned().unwrap_or_else(|| peer.0.to_string())
    }

    /// Ids in a row. Of many the first few and the last are shown, with their count.
    pub fn show_ids<'i>(&self, ids: impl IntoIterator<Item = &'i Id>) -> String {
        let names: Vec<String> = ids.into_iter().map(|id| self.show_id(id)).collect();
        shortened(&names)
    }

    pub fn show_peers(&self, peers: &[Peer]) -> String {
        let names: Vec<String> = peers.iter().map(|peer| self.show_peer(*peer)).collect();
        shortened(&names)
    }
}

/// More words than this are shortened.
const MANY: usize = 12;

fn shortened(words: &[String]) -> String {
    match words {
        [] => "none".to_string(),
        [first, second, .., last] if words.len() > MANY => {
            format!("{first} {second} .. {last} ({} in all)", words.len())
        }
        _ => words.join(" "),
    }
}

/// The words for modifier types.
const TYPES: [(&str, ModifierType); 5] = [
    ("transaction", ModifierType::TRANSACTION),
    ("header", ModifierType::HEADER),
    ("block", ModifierType::BLOCK_TRANSACTIONS),
    ("proofs", ModifierType::AD_PROOFS),
    ("extension", ModifierType::EXTENSION),
];

/// A modifier type by its word or its number.
pub fn modifier_type(word: &str) -> Result<ModifierType, String> {
    let known = TYPES.iter().find(|(name, _)| *name == word);
    let number = || super::words::number(word).and_then(ModifierType::new);
    known.map(|(_, found)| *found).or_else(number).ok_or_else(|| {
        format!(
            "`{word}` is not a type: expected transaction, header, block, proofs, extension or a number up to 65,535"
        )
    })
}

pub fn show_type(modifier_type: ModifierType) -> String {
    let known = TYPES.iter().find(|(_, found)| *found == modifier_type);
    known.map_or_else(
        || format!("type {}", modifier_type.number()),
        |(name, _)| name.to_string(),
    )
}
