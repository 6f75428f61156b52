use crate::numbers::widths;
use crate::{Id, TypeId};

/// One command of a step (docs/LAYOUT.md, "Commands").
#[derive(Debug, Clone, PartialEq, Eq)]
pub struct Command {
    pub kind: u8,
    pub type_id: TypeId,
    pub batch: u16,
    pub peer: u64,
    pub ids: Vec<Id>,
}

/// Reads a step's commands; `None` if the bytes end within one.
pub fn read_commands(bytes: &[u8]) -> Option<Vec<Command>> {
    let mut commands = Vec::new();
    let mut rest = bytes;
    while !rest.is_empty() {
        let (header, after) = rest.split_at_checked(widths::HEADER)?;
        let count = u32::from_be_bytes(header[13..].try_into().ok()?);
        let (ids, after) = after.split_at_checked(widths::ID * count as usize)?;
        commands.push(Command {
            kind: header[0],
            type_id: TypeId::from_be_bytes([header[1], header[2]]),
            batch: u16::from_be_bytes([header[3], header[4]]),
            peer: u64::from_be_bytes(header[5..13].try_into().ok()?),
            ids: ids
                .chunks_exact(widths::ID)
                .map(|id| id.try_into().ok())
                .collect::<Option<_>>()?,
        });
        rest = after;
    }
    Some(commands)
}
