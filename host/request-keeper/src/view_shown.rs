//! Views and sections as people read them: all of it, or in a few words.

use crate::view::{ABSENT, PLACE};
use crate::{Hex, ModifierType, Section, View};
use std::fmt::{self, Debug, Display, Formatter};

impl Debug for Section {
    fn fmt(&self, out: &mut Formatter<'_>) -> fmt::Result {
        out.debug_struct("Section")
            .field("modifier_type", &self.modifier_type)
            .field("id", &Hex(&self.id))
            .field("stored", &self.stored)
            .finish()
    }
}

impl Display for Section {
    fn fmt(&self, out: &mut Formatter<'_>) -> fmt::Result {
        let stored = if self.stored { "stored" } else { "missing" };
        write!(out, "{} {} {stored}", self.modifier_type, Hex(&self.id))
    }
}

impl Display for View {
    fn fmt(&self, out: &mut Formatter<'_>) -> fmt::Result {
        let first = u64::from(self.first());
        match self.rows() as u64 {
            0 => out.write_str("no heights"),
            rows => write!(out, "heights {first} to {}", first + rows - 1),
        }
    }
}

impl Debug for View {
    fn fmt(&self, out: &mut Formatter<'_>) -> fmt::Result {
        let rows: Vec<_> = self.row_bytes().map(Row).collect();
        out.debug_struct("View")
            .field("first", &self.first())
            .field("rows", &rows)
            .finish()
    }
}

/// A row's bytes, to be shown.
struct Row<'a>(&'a [u8]);

impl Debug for Row<'_> {
    fn fmt(&self, out: &mut Formatter<'_>) -> fmt::Result {
        let (count, places) = match self.0.split_first() {
            Some((&count, places)) if count != ABSENT => (usize::from(count), places),
            _ => return out.write_str("absent"),
        };
        let section = |place: &[u8]| {
            let (modifier_type, rest) = place.split_first_chunk()?;
            Some(Section {
                modifier_type: ModifierType::of_bytes(*modifier_type),
                id: *rest.first_chunk()?,
                stored: place.last() == Some(&1),
            })
        };
        let sections = places.chunks(PLACE).take(count).filter_map(section);
        out.debug_list().entries(sections).finish()
    }
}
