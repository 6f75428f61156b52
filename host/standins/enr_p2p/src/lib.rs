//! Stand-in for `enr_p2p`: a 64-bit peer id (document 01), messages and events.

pub mod types {
    #[derive(Debug, Clone, Copy, PartialEq, Eq, PartialOrd, Ord, Hash)]
    pub struct PeerId(pub u64);
}

pub mod protocol {
    pub mod messages {
        #[derive(Debug, Clone, PartialEq, Eq)]
        pub enum ProtocolMessage {
            GetPeers,
            Peers {
                body: Vec<u8>,
            },
            SyncInfo {
                body: Vec<u8>,
            },
            Inv {
                modifier_type: u8,
                ids: Vec<[u8; 32]>,
            },
            ModifierRequest {
                modifier_type: u8,
                ids: Vec<[u8; 32]>,
            },
            ModifierResponse {
                body: Vec<u8>,
            },
            Unknown {
                code: u8,
                body: Vec<u8>,
            },
        }
    }

    pub mod peer {
        use super::messages::ProtocolMessage;
        use crate::types::PeerId;

        #[derive(Debug, Clone, PartialEq, Eq)]
        pub enum ProtocolEvent {
            PeerConnected {
                peer_id: PeerId,
            },
            PeerDisconnected {
                peer_id: PeerId,
                reason: String,
            },
            Message {
                peer_id: PeerId,
                message: ProtocolMessage,
            },
        }
    }
}
