//! Oracle, reference, core and faulty variants held against each other. Whatever implements `keeper_values::Keeper` can
//! take part.

pub mod area;
pub mod beside;
pub mod cases;
pub mod differences;
pub mod hostile;
pub mod hostile_maps;
pub mod judge;
pub mod keepers;
pub mod list;
pub mod maps;
pub mod report;
pub mod tell;
