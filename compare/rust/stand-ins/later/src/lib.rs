//! The crate bytes itself, and what the Rust uses of a later version than Debian's: `try_get_..` and
//! their error. What `Buf` had before is handed on.
pub use real::*;

#[derive(Debug, Clone, Copy, PartialEq, Eq)]
pub struct TryGetError {
    pub requested: usize,
    pub available: usize,
}

impl std::fmt::Display for TryGetError {
    fn fmt(&self, f: &mut std::fmt::Formatter) -> std::fmt::Result {
        write!(f, "{} bytes are asked for, and {} are there", self.requested, self.available)
    }
}

impl std::error::Error for TryGetError {}

macro_rules! forms {
    ($($try_get:ident $get:ident $of:ty,)*) => {
        pub trait Buf: real::Buf {
            $(fn $try_get(&mut self) -> Result<$of, TryGetError> {
                let (requested, available) = (std::mem::size_of::<$of>(), self.remaining());
                if available < requested {
                    return Err(TryGetError { requested, available });
                }
                Ok(real::Buf::$get(self))
            }

            fn $get(&mut self) -> $of {
                real::Buf::$get(self)
            })*

            fn advance(&mut self, count: usize) {
                real::Buf::advance(self, count)
            }

            fn copy_to_slice(&mut self, out: &mut [u8]) {
                real::Buf::copy_to_slice(self, out)
            }
        }
    };
}

forms! {
    try_get_u8 get_u8 u8,
    try_get_u16 get_u16 u16,
    try_get_u16_le get_u16_le u16,
    try_get_u32 get_u32 u32,
    try_get_f32_le get_f32_le f32,
}

impl<T: real::Buf> Buf for T {}
