//! Rust written by hand over lent buffers, to be fast: what the others are measured by.
use crate::side::{Out, Side};

pub const BY_HAND: Side = Side { name: "by hand", frame, command, save };

fn sum(bytes: &[u8]) -> u8 {
    bytes.iter().fold(0, |sum, byte| sum.wrapping_add(*byte))
}

fn frame(packet: &[u8], out: &mut Out) -> u8 {
    let n = packet.len();
    if n > 254 {
        return 5;
    }
    let Some(out) = out.lent.get_mut(..n + 2) else { return 6 };
    out[0] = n as u8 + 1;
    out[1..=n].copy_from_slice(packet);
    out[n + 1] = sum(packet).wrapping_add(n as u8 + 1);
    0
}

fn command(id: u8, payload: &[u8], out: &mut Out) -> u8 {
    let n = payload.len() + 1;
    if n > 254 {
        return 5;
    }
    let Some(out) = out.lent.get_mut(..n + 2) else { return 6 };
    out[0] = n as u8 + 1;
    out[1] = id;
    out[2..=n].copy_from_slice(payload);
    out[n + 1] = sum(payload).wrapping_add(id).wrapping_add(n as u8 + 1);
    0
}

fn save(eeprom: &[u8], settings: &[u32], out: &mut Out) -> u8 {
    let (e, s) = (eeprom.len(), settings.len());
    if e > 65_536 || s > 65_536 {
        return 14;
    }
    let blocks = e.div_ceil(32);
    let Some(out) = out.lent.get_mut(..18 + e + 8 * blocks + 13 * s) else { return 6 };
    let (shape, out) = out.split_at_mut(11);
    let (memory, out) = out.split_at_mut(e + 8 * blocks);
    let (words, end) = out.split_at_mut(13 * s);
    shape[..3].copy_from_slice(&[0x01, 0, 8]);
    shape[3..7].copy_from_slice(&(e as u32).to_be_bytes());
    shape[7..].copy_from_slice(&(s as u32).to_be_bytes());
    put_blocks(eeprom, memory);
    put_words(settings, words);
    end[..3].copy_from_slice(&[0x7F, 0, 4]);
    end[3..].copy_from_slice(&((blocks + s) as u32).to_be_bytes());
    0
}

fn put_blocks(eeprom: &[u8], out: &mut [u8]) {
    for ((k, block), field) in eeprom.chunks(32).enumerate().zip(out.chunks_mut(40)) {
        let n = block.len() as u8;
        let [high, low] = (32 * k as u16).to_be_bytes();
        field[..7].copy_from_slice(&[0x10, 0, n + 5, n + 4, 0x04, high, low]);
        let (content, last) = field[7..].split_at_mut(block.len());
        content.copy_from_slice(block);
        last[0] = sum(block).wrapping_add(n + 8).wrapping_add(high).wrapping_add(low);
    }
}

fn put_words(settings: &[u32], out: &mut [u8]) {
    for ((k, word), field) in settings.iter().enumerate().zip(out.chunks_exact_mut(13)) {
        let [high, low] = (k as u16).to_be_bytes();
        let value = word.to_le_bytes();
        field[..8].copy_from_slice(&[0x10, 0, 10, 9, 0x13, 0x80, high, low]);
        field[8..12].copy_from_slice(&value);
        field[12] = sum(&value).wrapping_add(9 + 0x13 + 0x80).wrapping_add(high).wrapping_add(low);
    }
}
