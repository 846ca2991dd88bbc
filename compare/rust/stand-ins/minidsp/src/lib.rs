//! Stands in for minidsp's root: the one module that was supplied, and what it names of its crate.
pub use minidsp_protocol::device;

pub mod utils {
    pub mod mock_device;
}
