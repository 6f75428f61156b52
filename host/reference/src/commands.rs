//! The commands of a step, as bytes (docs/LAYOUT.md, "Commands").

use crate::Run;
use keeper_values::numbers::{commands, limits};
use keeper_values::{Id, TypeId};

/// Rule 3: "each request carries a run of at most 400 consecutive ids of that list"; every one but the last carries 400 (F-4).
pub fn runs(ids: &[Id]) -> Vec<&[Id]> {
    ids.chunks(limits::RUN).collect()
}

/// A list as one batch of requests.
pub fn requests(run: &mut Run, peer: u64, type_id: TypeId, ids: &[Id]) {
    for ids in (run.rules.runs)(ids) {
        run.commands.request(peer, type_id, ids);
    }
    run.commands.batches += 1;
}

/// What a step has written so far.
#[derive(Debug, Clone, Default)]
pub struct Commands {
    pub bytes: Vec<u8>,
    pub batches: u16,
}

impl Commands {
    fn command(&mut self, kind: u8, type_id: TypeId, peer: u64, ids: &[Id]) {
        self.bytes.push(kind);
        self.bytes.extend(type_id.to_be_bytes());
        self.bytes.extend(self.batches.to_be_bytes());
        self.bytes.extend(peer.to_be_bytes());
        self.bytes.extend((ids.len() as u32).to_be_bytes());
        self.bytes.extend(ids.iter().flatten());
    }

    /// One request, of the batch that its list is.
    pub fn request(&mut self, peer: u64, type_id: TypeId, ids: &[Id]) {
        self.command(commands::REQUEST, type_id, peer, ids);
    }

    pub fn announcement(&mut self, peer: u64, type_id: TypeId, ids: &[Id]) {
        self.command(commands::ANNOUNCEMENT, type_id, peer, ids);
        self.batches += 1;
    }

    pub fn sync_info(&mut self, peer: u64) {
        self.command(commands::SYNC_INFO, 0, peer, &[]);
        self.batches += 1;
    }
}
