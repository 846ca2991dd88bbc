//! Stands in for this device's table, which was not supplied.
pub static DEVICE: super::Device = super::m2x4hd::EMPTY;
