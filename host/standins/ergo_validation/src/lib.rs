//! Stand-in for `ergo_validation`: the oracle runs without a validator, so these are names only.

use enr_chain::Header;

#[derive(Debug, Clone, PartialEq, Eq)]
pub struct Parameters;

#[derive(Debug, Clone, Copy, PartialEq, Eq)]
pub struct ValidationError;

pub struct Applied {
    pub epoch_boundary_params: Option<Parameters>,
    pub epoch_boundary_proposed_update: Option<Vec<u8>>,
}

pub trait StatePersistence {
    fn flush(&self) -> Result<(), ValidationError>;
    fn resize_cache(&self, bytes: usize) -> Result<(), ValidationError>;
}

pub trait BlockValidator {
    fn validated_height(&self) -> u32;

    fn state_persistence(&self) -> Option<&dyn StatePersistence>;

    fn reset_to(&mut self, height: u32, state_root: [u8; 33]) -> Result<(), ValidationError>;

    #[allow(clippy::too_many_arguments)]
    fn apply_state(
        &mut self,
        header: &Header,
        block_txs: &[u8],
        ad_proofs: Option<&[u8]>,
        extension: &[u8],
        parent_extension: Option<&[u8]>,
        preceding: &[Header],
        active_params: &Parameters,
        expected_boundary_params: Option<&Parameters>,
        expected_proposed_update: Option<&[u8]>,
    ) -> Result<Applied, ValidationError>;
}
