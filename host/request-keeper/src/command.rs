use crate::hex::{count, HexList};
use crate::{Id, ModifierType, Peer};
use std::fmt::{self, Debug, Display, Formatter};

/// Bytes before the ids: kind, type, batch, peer, count.
const HEADER: usize = 17;

/// Something to send.
#[derive(Debug, Clone, Copy, PartialEq, Eq)]
pub struct Command<'a> {
    pub to: Peer,
    /// Commands of one list have one batch, numbered from 0 within a step. After a failed send the rest of the batch is
    /// dropped: see [`Outbox`](crate::Outbox).
    pub batch: u16,
    pub message: Message<'a>,
}

impl Display for Command<'_> {
    fn fmt(&self, out: &mut Formatter<'_>) -> fmt::Result {
        write!(out, "to {}: {}", self.to, self.message)
    }
}

/// What to send.
#[derive(Clone, Copy, PartialEq, Eq)]
pub enum Message<'a> {
    /// Ask for these modifiers, at most 400.
    Request {
        modifier_type: ModifierType,
        ids: &'a [Id],
    },
    /// Announce these headers.
    Announcement { ids: &'a [Id] },
    /// Our own sync info, which the node makes.
    SyncInfo,
}

impl Debug for Message<'_> {
    fn fmt(&self, out: &mut Formatter<'_>) -> fmt::Result {
        match *self {
            Self::Request { modifier_type, ids } => out
                .debug_struct("Request")
                .field("modifier_type", &modifier_type)
                .field("ids", &HexList(ids))
                .finish(),
            Self::Announcement { ids } => out
                .debug_struct("Announcement")
                .field("ids", &HexList(ids))
                .finish(),
            Self::SyncInfo => out.write_str("SyncInfo"),
        }
    }
}

impl Display for Message<'_> {
    fn fmt(&self, out: &mut Formatter<'_>) -> fmt::Result {
        match *self {
            Self::Request { modifier_type, ids } => {
                write!(out, "request of {modifier_type}, {}", count(ids))
            }
            Self::Announcement { ids } => write!(out, "announcement of headers, {}", count(ids)),
            Self::SyncInfo => out.write_str("sync info"),
        }
    }
}

/// A step's commands in the order in which they are to be sent.
#[derive(Clone)]
pub struct Commands<'a> {
    rest: &'a [u8],
}

impl<'a> Commands<'a> {
    pub(crate) fn read(bytes: &'a [u8]) -> Self {
        Self { rest: bytes }
    }

    /// The bytes of the commands that are left.
    pub fn as_bytes(&self) -> &'a [u8] {
        self.rest
    }
}

impl Debug for Commands<'_> {
    fn fmt(&self, out: &mut Formatter<'_>) -> fmt::Result {
        out.debug_list().entries(self.clone()).finish()
    }
}

impl<'a> Iterator for Commands<'a> {
    type Item = Command<'a>;

    /// The core writes whole commands of three kinds and no others; at anything else the commands end.
    fn next(&mut self) -> Option<Command<'a>> {
        let (header, after) = self.rest.split_first_chunk::<HEADER>()?;
        let [kind, t0, t1, b0, b1, p0, p1, p2, p3, p4, p5, p6, p7, count @ ..] = *header;
        let length = usize::try_from(u32::from_be_bytes(count))
            .ok()?
            .checked_mul(32)?;
        let (bytes, rest) = after.split_at_checked(length)?;
        let (ids, _) = bytes.as_chunks::<32>();
        let message = match kind {
            1 => Message::Request {
                modifier_type: ModifierType::of_bytes([t0, t1]),
                ids,
            },
            2 => Message::Announcement { ids },
            3 => Message::SyncInfo,
            _ => return None,
        };
        self.rest = rest;
        Some(Command {
            to: Peer(u64::from_be_bytes([p0, p1, p2, p3, p4, p5, p6, p7])),
            batch: u16::from_be_bytes([b0, b1]),
            message,
        })
    }
}
