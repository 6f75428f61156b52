use crate::numbers::widths;
use crate::{Arguments, Id, TypeId};
use std::collections::BTreeSet;

/// A section of a block, as a view row lists it.
#[derive(Debug, Clone, Copy, PartialEq, Eq)]
pub struct Place {
    pub type_id: TypeId,
    pub id: Id,
    pub stored: bool,
}

/// One height of a view.
#[derive(Debug, Clone, PartialEq, Eq)]
pub enum Row {
    /// The header is absent.
    Absent,
    /// The header's sections, at most three.
    Present(Vec<Place>),
}

impl Row {
    fn write(&self, bytes: &mut Vec<u8>) {
        let end = bytes.len() + widths::ROW;
        match self {
            Row::Absent => bytes.push(255),
            Row::Present(places) => {
                bytes.push(places.len() as u8);
                for place in places {
                    bytes.extend(place.type_id.to_be_bytes());
                    bytes.extend_from_slice(&place.id);
                    bytes.push(u8::from(place.stored));
                }
            }
        }
        bytes.resize(end, 0);
    }
}

/// What the host says of the heights from `first` on.
#[derive(Debug, Clone, PartialEq, Eq, Default)]
pub struct View {
    pub first: u32,
    pub rows: Vec<Row>,
}

impl View {
    /// The row of a height, if the view has one.
    pub fn row(&self, height: u32) -> Option<&Row> {
        self.rows.get(height.checked_sub(self.first)? as usize)
    }

    pub fn to_bytes(&self) -> Vec<u8> {
        let mut bytes = self.first.to_be_bytes().to_vec();
        for row in &self.rows {
            row.write(&mut bytes);
        }
        bytes
    }
}

/// A step's arguments as values. Only well-formed ones can be said this way; `Arguments` says any.
#[derive(Debug, Clone, PartialEq, Eq, Default)]
pub struct Call {
    pub kind: u8,
    pub clock: u64,
    pub gate: bool,
    pub height: u32,
    pub peer: u64,
    pub type_id: TypeId,
    pub fork: u32,
    pub parsed: bool,
    pub has_tip: bool,
    pub tip: u32,
    pub ids: Vec<Id>,
    pub continuation: Vec<Id>,
    pub stored: BTreeSet<(TypeId, Id)>,
    pub peers: Vec<u64>,
    pub view: View,
    /// Which of the sends that the shell tries in this step fail, counted from 0. The core never learns of them.
    pub fails: Vec<usize>,
}

impl Call {
    pub fn to_arguments(&self) -> Arguments {
        let mut stored = Vec::with_capacity(self.stored.len() * widths::PAIR);
        for (type_id, id) in &self.stored {
            stored.extend(type_id.to_be_bytes());
            stored.extend_from_slice(id);
        }
        Arguments {
            kind: self.kind,
            clock: self.clock,
            gate: u8::from(self.gate),
            height: self.height,
            peer: self.peer,
            type_id: self.type_id,
            fork: self.fork,
            parsed: u8::from(self.parsed),
            has_tip: u8::from(self.has_tip),
            tip: self.tip,
            ids: self.ids.concat(),
            continuation: self.continuation.concat(),
            stored,
            peers: self.peers.iter().flat_map(|p| p.to_be_bytes()).collect(),
            view: self.view.to_bytes(),
        }
    }
}
