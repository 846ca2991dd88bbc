//! Replays of saves that no program of the port has room for, on the port linked in: saves of full size with a fault
//! at their end, and saves around 16,777,216 bytes, the most that document 01 allows. Prints how many there were and
//! how many answers, or memories after them, differ.
extern "C" {
    fn wovenpike_replay(eeprom: *mut u8, e: usize, settings: *mut u32, s: usize, save: *const u8, len: usize) -> u8;
}

const MOST: usize = 16_777_216;
const SIZE: usize = 65_536;

#[derive(Clone, PartialEq)]
struct Processor {
    eeprom: Vec<u8>,
    settings: Vec<u32>,
}

impl Processor {
    fn bare(e: usize) -> Self {
        Processor { eeprom: vec![0xFF; e], settings: vec![0; SIZE] }
    }

    fn replay(&mut self, save: &[u8]) -> u8 {
        let (e, s) = (self.eeprom.len(), self.settings.len());
        unsafe { wovenpike_replay(self.eeprom.as_mut_ptr(), e, self.settings.as_mut_ptr(), s, save.as_ptr(), save.len()) }
    }
}

fn field(tag: u8, content: &[u8]) -> Vec<u8> {
    [&[tag][..], &(content.len() as u16).to_be_bytes(), content].concat()
}

fn shape() -> Vec<u8> {
    let size = (SIZE as u32).to_be_bytes();
    field(0x01, &[size, size].concat())
}

fn end(frames: usize) -> Vec<u8> {
    field(0x7F, &(frames as u32).to_be_bytes())
}

fn frame(packet: &[u8]) -> Vec<u8> {
    let mut frame = vec![packet.len() as u8 + 1];
    frame.extend_from_slice(packet);
    frame.push(frame.iter().fold(0u8, |sum, b| sum.wrapping_add(*b)));
    field(0x10, &frame)
}

fn write_memory(addr: usize, data: &[u8]) -> Vec<u8> {
    frame(&[&[0x04][..], &(addr as u16).to_be_bytes(), data].concat())
}

fn write(addr: usize, word: u32) -> Vec<u8> {
    frame(&[&[0x13, 0x80][..], &(addr as u16).to_be_bytes(), &word.to_le_bytes()].concat())
}

/// The frames of a processor's save, each in its field.
fn frames(of: &Processor) -> Vec<Vec<u8>> {
    let blocks = of.eeprom.chunks(32).enumerate().map(|(k, block)| write_memory(32 * k, block));
    blocks.chain(of.settings.iter().enumerate().map(|(k, word)| write(k, *word))).collect()
}

/// A save of these frames, with what stands behind them.
fn save(frames: &[Vec<u8>], last: &[u8]) -> Vec<u8> {
    [shape(), frames.concat(), last.to_vec()].concat()
}

/// A sound save of exactly so many bytes: blocks of 251 bytes at 0, and at 251 one or two that make up the length.
fn save_of(len: usize) -> Vec<u8> {
    let mut frames = vec![write_memory(0, &[1; 251]); (len - 18 - 8) / 259];
    let left = len - 18 - 259 * frames.len();
    frames.push(write_memory(251, &vec![2; left - 8]));
    let count = frames.len();
    let made = save(&frames, &end(count));
    assert_eq!(made.len(), len);
    made
}

/// What is wrong, how many bytes of EEPROM there are, the save, document 01's number, and what the processor is then.
type Case = (&'static str, usize, Vec<u8>, u8, Option<Processor>);

fn of_full_size() -> Vec<Case> {
    let mut whole = Processor::bare(SIZE);
    for i in 0..SIZE {
        whole.eeprom[i] = (i * 167 % 251) as u8;
        whole.settings[i] = (i as u32).wrapping_mul(2_654_435_761);
    }
    let all = frames(&whole);
    let n = all.len();
    let behind = |packet: &[u8]| save(&[&all[..n - 1], &[frame(packet)]].concat(), &end(n));
    let good = save(&all, &end(n));
    let mut wrong_sum = good.clone();
    wrong_sum[good.len() - 8] ^= 1;
    let mut trailing = all.clone();
    trailing[n - 1] = field(0x10, &[&all[n - 1][3..], &[0]].concat());
    vec![
        ("a full save", SIZE, good.clone(), 0, Some(whole)),
        ("a full save, and a byte behind it", SIZE, [&good[..], &[0]].concat(), 13, None),
        ("a full save, cut by a byte", SIZE, good[..good.len() - 1].to_vec(), 13, None),
        ("a full save without its end", SIZE, good[..good.len() - 7].to_vec(), 13, None),
        ("a full save that counts one frame less", SIZE, save(&all, &end(n - 1)), 13, None),
        ("a full save, and a frame behind its end", SIZE, [good.clone(), write(0, 0)].concat(), 13, None),
        ("a wrong sum in the last frame", SIZE, wrong_sum, 9, None),
        ("a byte behind the last frame's sum", SIZE, save(&trailing, &end(n)), 10, None),
        ("no packet in the last frame", SIZE, behind(&[]), 3, None),
        ("a read in the last frame", SIZE, behind(&[0x05, 0, 0, 1]), 13, None),
        ("bytes beyond the EEPROM in the last frame", SIZE, behind(&[0x04, 0xFF, 0xFF, 1, 2]), 7, None),
        ("a Write of three bytes in the last frame", SIZE, behind(&[0x13, 0x80, 0, 0, 1, 2, 3]), 13, None),
        ("a full save on an EEPROM of another size", SIZE - 1, good, 14, None),
    ]
}

fn of_most_bytes() -> Vec<Case> {
    let mut written = Processor::bare(SIZE);
    let (longest, longer) = (save_of(MOST), save_of(MOST + 1));
    written.eeprom[..251].fill(1);
    let last = longest.len() - 8;
    let block = longest[..last].iter().rev().take_while(|b| **b == 2).count();
    written.eeprom[251..251 + block].fill(2);
    let mut wrong_sum = longest.clone();
    wrong_sum[last] ^= 1;
    vec![
        ("the most bytes", SIZE, longest, 0, Some(written)),
        ("one byte more", SIZE, longer.clone(), 5, None),
        ("one byte more, and nothing of a save", SIZE, vec![0; MOST + 1], 5, None),
        ("the most bytes, and nothing of a save", SIZE, vec![0; MOST], 13, None),
        ("one byte more, on a memory that is too large", SIZE + 1, longer, 14, None),
        ("the most bytes, with a wrong sum in the last frame", SIZE, wrong_sum, 9, None),
    ]
}

fn main() {
    let (mut tried, mut differences) = (0, 0);
    for (what, e, save, number, after) in of_full_size().into_iter().chain(of_most_bytes()) {
        let before = Processor::bare(e);
        let mut processor = before.clone();
        let answer = processor.replay(&save);
        tried += 1;
        if answer != number || processor != after.unwrap_or(before) {
            println!("large: {what}: {answer}, and document 01 says {number}; or the memories are not what it says");
            differences += 1;
        }
    }
    println!("large: {tried} saves, {differences} differences");
    std::process::exit((differences > 0) as i32);
}
