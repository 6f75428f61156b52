//! Areas that start at a page, so that every run compares the same addresses.

use keeper_values::STATE_BYTES;

#[repr(C, align(4096))]
#[derive(Clone)]
pub struct Area([u8; STATE_BYTES]);

impl Area {
    pub fn zero() -> Box<Self> {
        Box::new(Self([0; STATE_BYTES]))
    }

    pub fn of(bytes: &[u8]) -> Box<Self> {
        let mut area = Self::zero();
        area.0.copy_from_slice(bytes);
        area
    }

    pub fn bytes(&self) -> &[u8] {
        &self.0
    }

    pub fn bytes_mut(&mut self) -> &mut [u8] {
        &mut self.0
    }
}
