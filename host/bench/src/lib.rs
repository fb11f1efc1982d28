//! The store without proofs, for comparison (see [`baseline`]), and what measures the library beside it (see [`measure`],
//! [`advances`] for advances of which few cells have changed and for those that give cells outwards, and [`lists`] for adds of several
//! ranges). The tables are printed by the program of this package.

pub mod advances;
pub mod baseline;
pub mod lists;
pub mod measure;
pub mod stores;
