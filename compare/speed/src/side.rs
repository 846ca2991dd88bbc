//! What the sides have in common.
use bytes::Bytes;

/// What a side writes to: an output that it is lent, or bytes that it makes itself.
pub struct Out {
    pub lent: Vec<u8>,
    pub made: Option<Bytes>,
}

impl Out {
    pub fn of(room: usize) -> Self {
        Out { lent: vec![0xEE; room], made: None }
    }

    pub fn written(&self) -> &[u8] {
        self.made.as_deref().unwrap_or(&self.lent)
    }
}

/// One side: each function answers 0, or document 01's number of its refusal.
pub struct Side {
    pub name: &'static str,
    /// the frame of a packet
    pub frame: fn(&[u8], &mut Out) -> u8,
    /// the frame of a command that has this byte and, behind it, this payload
    pub command: fn(u8, &[u8], &mut Out) -> u8,
    /// a save of both memories
    pub save: fn(&[u8], &[u32], &mut Out) -> u8,
}
