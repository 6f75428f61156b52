use std::fmt::{self, Display, Formatter};

/// A modifier type of Ergo's protocol: any number of sixteen bits, so that a test network may number its own. Of those that
/// are announced the core requests the five that are named here and no other; a view's sections and needed modifiers may be
/// of any type.
///
/// ```
/// use request_keeper::ModifierType;
///
/// assert_eq!(ModifierType::from_number(102), ModifierType::BLOCK_TRANSACTIONS);
/// assert_eq!(ModifierType::from_number(358).to_string(), "type 358");
/// assert_eq!(ModifierType::from_byte(77).number(), 77);
/// assert_eq!(ModifierType::new(300), Some(ModifierType::from_number(300)));
/// ```
#[derive(Debug, Clone, Copy, PartialEq, Eq, PartialOrd, Ord, Hash)]
pub struct ModifierType(u16);

/// Bytes of a type at the boundary and in the state area, the high one first.
pub(crate) const TYPE: usize = 2;

impl ModifierType {
    pub const TRANSACTION: Self = Self(2);
    pub const HEADER: Self = Self(101);
    pub const BLOCK_TRANSACTIONS: Self = Self(102);
    pub const AD_PROOFS: Self = Self(104);
    pub const EXTENSION: Self = Self(108);

    /// The type of a number.
    pub const fn from_number(number: u16) -> Self {
        Self(number)
    }

    /// The type of a number, of which each has one: `None` is never given. It was for numbers above 255, up to version 0.6 of
    /// this crate; [`from_number`](Self::from_number) says the same without the option.
    pub const fn new(number: u16) -> Option<Self> {
        Some(Self::from_number(number))
    }

    /// The type of a number of one byte.
    pub const fn from_byte(number: u8) -> Self {
        Self(number as u16)
    }

    /// The protocol's number.
    pub const fn number(self) -> u16 {
        self.0
    }

    /// As the boundary lays it out.
    pub(crate) const fn bytes(self) -> [u8; TYPE] {
        self.0.to_be_bytes()
    }

    pub(crate) const fn of_bytes(bytes: [u8; TYPE]) -> Self {
        Self(u16::from_be_bytes(bytes))
    }
}

impl Display for ModifierType {
    fn fmt(&self, out: &mut Formatter<'_>) -> fmt::Result {
        out.write_str(match *self {
            Self::TRANSACTION => "transaction",
            Self::HEADER => "header",
            Self::BLOCK_TRANSACTIONS => "block transactions",
            Self::AD_PROOFS => "AD proofs",
            Self::EXTENSION => "extension",
            other => return write!(out, "type {}", other.0),
        })
    }
}
