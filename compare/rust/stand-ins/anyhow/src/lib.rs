//! Stands in for anyhow: the one name that the Rust uses. No error is ever made of it.
pub type Result<T, E = std::convert::Infallible> = std::result::Result<T, E>;
