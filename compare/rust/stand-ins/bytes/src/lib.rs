//! Stands in for bytes: the part of it that the Rust uses, over `Vec`.
use std::ops::{Deref, DerefMut, RangeBounds};

#[derive(Debug, Clone, Copy, PartialEq, Eq)]
pub struct TryGetError {
    pub requested: usize,
    pub available: usize,
}

#[derive(Debug, Clone, Default, PartialEq, Eq)]
pub struct Bytes(Vec<u8>);

#[derive(Debug, Clone, Default)]
pub struct BytesMut(Vec<u8>);

impl Bytes {
    pub fn copy_from_slice(data: &[u8]) -> Self {
        Bytes(data.to_vec())
    }

    pub fn slice(&self, range: impl RangeBounds<usize>) -> Self {
        Bytes(self.0[(range.start_bound().cloned(), range.end_bound().cloned())].to_vec())
    }
}

impl Deref for Bytes {
    type Target = [u8];

    fn deref(&self) -> &[u8] {
        &self.0
    }
}

impl AsRef<[u8]> for Bytes {
    fn as_ref(&self) -> &[u8] {
        &self.0
    }
}

impl BytesMut {
    pub fn with_capacity(capacity: usize) -> Self {
        BytesMut(Vec::with_capacity(capacity))
    }

    pub fn freeze(self) -> Bytes {
        Bytes(self.0)
    }

    pub fn extend_from_slice(&mut self, data: &[u8]) {
        self.0.extend_from_slice(data);
    }

    pub fn truncate(&mut self, len: usize) {
        self.0.truncate(len);
    }

    pub fn resize(&mut self, len: usize, value: u8) {
        self.0.resize(len, value);
    }
}

impl From<&[u8]> for BytesMut {
    fn from(data: &[u8]) -> Self {
        BytesMut(data.to_vec())
    }
}

impl<'a> Extend<&'a u8> for BytesMut {
    fn extend<T: IntoIterator<Item = &'a u8>>(&mut self, data: T) {
        self.0.extend(data);
    }
}

impl Deref for BytesMut {
    type Target = [u8];

    fn deref(&self) -> &[u8] {
        &self.0
    }
}

impl DerefMut for BytesMut {
    fn deref_mut(&mut self) -> &mut [u8] {
        &mut self.0
    }
}

impl AsRef<[u8]> for BytesMut {
    fn as_ref(&self) -> &[u8] {
        &self.0
    }
}

pub trait Buf {
    fn remaining(&self) -> usize;
    fn copy_to_slice(&mut self, out: &mut [u8]);
    fn advance(&mut self, count: usize);

    fn try_get<const N: usize>(&mut self) -> Result<[u8; N], TryGetError> {
        if self.remaining() < N {
            return Err(TryGetError {
                requested: N,
                available: self.remaining(),
            });
        }
        let mut out = [0; N];
        self.copy_to_slice(&mut out);
        Ok(out)
    }

    fn try_get_u8(&mut self) -> Result<u8, TryGetError> {
        self.try_get().map(u8::from_be_bytes)
    }

    fn try_get_u16(&mut self) -> Result<u16, TryGetError> {
        self.try_get().map(u16::from_be_bytes)
    }

    fn try_get_u16_le(&mut self) -> Result<u16, TryGetError> {
        self.try_get().map(u16::from_le_bytes)
    }

    fn try_get_f32_le(&mut self) -> Result<f32, TryGetError> {
        self.try_get().map(f32::from_le_bytes)
    }

    fn get_f32_le(&mut self) -> f32 {
        self.try_get_f32_le().unwrap()
    }

    fn get_u32(&mut self) -> u32 {
        self.try_get().map(u32::from_be_bytes).unwrap()
    }
}

impl Buf for Bytes {
    fn remaining(&self) -> usize {
        self.0.len()
    }

    fn copy_to_slice(&mut self, out: &mut [u8]) {
        out.copy_from_slice(&self.0[..out.len()]);
        self.advance(out.len());
    }

    fn advance(&mut self, count: usize) {
        self.0.drain(..count);
    }
}

pub trait BufMut {
    fn put_slice(&mut self, data: &[u8]);

    fn put(&mut self, data: Bytes)
    where
        Self: Sized,
    {
        self.put_slice(&data);
    }

    fn put_u8(&mut self, n: u8) {
        self.put_slice(&[n]);
    }

    fn put_u16(&mut self, n: u16) {
        self.put_slice(&n.to_be_bytes());
    }

    fn put_u16_le(&mut self, n: u16) {
        self.put_slice(&n.to_le_bytes());
    }

    fn put_f32_le(&mut self, x: f32) {
        self.put_slice(&x.to_le_bytes());
    }
}

impl BufMut for BytesMut {
    fn put_slice(&mut self, data: &[u8]) {
        self.0.extend_from_slice(data);
    }
}
