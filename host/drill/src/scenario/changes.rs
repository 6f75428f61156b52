//! What surrounds the steps, as words: it holds until it is changed.

use super::names::{expanded, modifier_type, Names};
use super::wakes::{ids, peers};
use super::words::{bound, number, Fault, Words};
use request_keeper::{Id, ModifierType, Peer};

/// The sections that a block needs.
pub type Sections = Vec<(ModifierType, Id)>;
/// A height, and its block's sections or `None`: its header is absent.
pub type Row = (u32, Option<Sections>);

/// A change of the surroundings.
#[derive(Debug, Clone, PartialEq, Eq)]
pub enum Change {
    /// The outbound peers, in the node's order.
    Peers(Vec<Peer>),
    /// Sends to these peers fail.
    Fails(Vec<Peer>),
    /// Whether modifiers may be requested.
    GateOpen(bool),
    /// The height of our own header chain.
    Chain(u32),
    Headers(Vec<Row>),
    /// The store has these.
    Stored(Vec<Id>),
    /// The store has these no more.
    Unstored(Vec<Id>),
    /// The view lent to a step ends after so many rows; `None`: it is as long as the rules read.
    View(Option<usize>),
}

impl Change {
    /// The change that a line's first word begins; `None` if the word is no change.
    pub fn read(
        word: &str,
        words: &mut Words<'_>,
        names: &mut Names,
    ) -> Result<Option<Self>, Fault> {
        let change = match word {
            "peers" => Self::Peers(peers(words, names)?),
            "fails" => Self::Fails(peers(words, names)?),
            "gate" => Self::GateOpen(match words.expect("`open` or `shut`")? {
                "open" => true,
                "shut" => false,
                word => {
                    return Err(words.fault(format!(
                        "`{word}` was not expected here, but `open` or `shut`"
                    )))
                }
            }),
            "chain" => Self::Chain(words.number("a height")?),
            "header" => Self::Headers(headers(words, names)?),
            "stored" => Self::Stored(ids(words, names)?),
            "unstored" => Self::Unstored(ids(words, names)?),
            "view" => Self::View(view(words)?),
            _ => return Ok(None),
        };
        words.end()?;
        Ok(Some(change))
    }
}

fn view(words: &mut Words<'_>) -> Result<Option<usize>, Fault> {
    const FORMS: &str = "`whole` or a number of rows";
    let word = words.expect(FORMS)?;
    if word == "whole" {
        return Ok(None);
    }
    let rows = number(word).ok_or_else(|| {
        let bound = bound::<usize>(word);
        words.fault(format!(
            "`{word}` was not expected here, but {FORMS}{bound}"
        ))
    })?;
    Ok(Some(rows))
}

/// `HEIGHT` or `LOW..HIGH`, then `absent` or the sections as `TYPE:NAME`. For a range the height is put behind each name.
fn headers(words: &mut Words<'_>, names: &mut Names) -> Result<Vec<Row>, Fault> {
    let given = words.expect("a height, or a range of heights as `401..410`")?;
    let many = given.contains("..");
    let heights = expanded(given).map_err(|what| words.fault(what))?;
    let sections = words.all();
    let mut rows = Vec::new();
    for height in heights {
        let height: u32 = number(&height).ok_or_else(|| {
            let bound = bound::<u32>(&height);
            words.fault(format!("`{height}` is not a height{bound}"))
        })?;
        if sections == ["absent"] {
            rows.push((height, None));
            continue;
        }
        let mut row = Vec::new();
        for section in &sections {
            let (type_word, name) = section.split_once(':').ok_or_else(|| {
                words.fault(format!(
                    "`{section}` is not a section: expected TYPE:NAME, as `block:b401`, or `absent` alone"
                ))
            })?;
            let name = if many {
                format!("{name}{height}")
            } else {
                name.to_string()
            };
            let modifier_type = modifier_type(type_word).map_err(|what| words.fault(what))?;
            let id = names.introduce(&name).map_err(|what| words.fault(what))?;
            row.push((modifier_type, id));
        }
        rows.push((height, Some(row)));
    }
    Ok(rows)
}
