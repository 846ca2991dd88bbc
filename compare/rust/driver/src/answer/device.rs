//! mock_device.rs. The mock is lent the first bytes and words of two memories, as the port's device is.
use std::panic::{catch_unwind, AssertUnwindSafe};

use bytes::Bytes;
use minidsp::{device::m2x4hd, utils::mock_device::MockDevice};
use minidsp_protocol::{
    commands::{Commands, ProtocolError, Responses, Value},
    device::DeviceKind,
    packet::{self, ParseError},
};

use super::{
    answers,
    encoding::{framed, whole},
    fields::Lent,
    outside, records, saves,
    words::{byte, bytes, half, hex, hex32, number, refused, untouched, unwritten, word32, written, LONGEST},
    OUTSIDE,
};
use crate::intended::{NAN, STORED};

/// The most bytes or words that a memory of a device has; the bench has one more of each.
const MOST: usize = 65536;

pub struct Processor {
    mock: MockDevice,
    /// What is not lent of the two memories.
    eeprom_rest: Vec<u8>,
    settings_rest: Vec<u32>,
    accepted: u32,
    refused: u32,
    /// A save, and the memories that it was made of.
    kept: Vec<u8>,
    kept_from: (Vec<u8>, Vec<u32>),
}

impl Default for Processor {
    fn default() -> Self {
        Processor {
            mock: MockDevice { hw_id: 0, dsp_version: 0, ..Default::default() },
            eeprom_rest: vec![0xFF; MOST + 1],
            settings_rest: vec![0; MOST + 1],
            accepted: 0,
            refused: 0,
            kept: Vec::new(),
            kept_from: Default::default(),
        }
    }
}

pub fn caught<T>(call: impl FnOnce() -> T) -> Option<T> {
    catch_unwind(AssertUnwindSafe(call)).ok()
}

impl Processor {
    pub fn answer(&mut self, verb: &str, args: &[&str]) -> Option<String> {
        Some(match verb {
            "lend" => self.lend(number(args[0]), number(args[1])),
            "bare" => self.make(args, None),
            "new" => self.make(args, Some(meters(args[4]))),
            "send" => self.send(&bytes(args[0]), number(args[1])),
            "execute" => self.execute(args),
            "execute_into" => self.execute_into(args),
            "write_u8" => self.write(|mock| mock.write_eeprom_u8(half(args[0]), byte(args[1]))),
            "write_u16" => self.write(|mock| mock.write_eeprom_u16(half(args[0]), half(args[1]))),
            "write_u32" => self.write(|mock| mock.write_eeprom_u32(half(args[0]), hex32(args[1]))),
            "set_serial" => self.write(|mock| mock.set_serial(hex32(args[0]))),
            "set_timestamp" => self.write(|mock| mock.set_timestamp(hex32(args[0]))),
            "peek" => hex(part(&self.mock.eeprom, args)),
            "peek_words" => peek_words(part(&self.mock.settings, args)),
            "digest" => self.digest(),
            "save" => self.save(number(args[0])),
            "keep" => self.keep(number(args[0])),
            "kept" => hex(part(&self.kept, args)),
            "restore" => self.restore(),
            "replay" => self.replay(&bytes(args[0])),
            "judge" => judge(&bytes(args[0])),
            "tally" => format!("accepted {} refused {}", self.accepted, self.refused),
            "zero" => {
                (self.accepted, self.refused) = (0, 0);
                "done".to_string()
            }
            _ => return None,
        })
    }

    fn lend(&mut self, eeprom: usize, settings: usize) -> String {
        self.mock.eeprom.append(&mut self.eeprom_rest);
        self.eeprom_rest = self.mock.eeprom.split_off(eeprom);
        self.mock.settings.append(&mut self.settings_rest);
        self.settings_rest = self.mock.settings.split_off(settings);
        "done".to_string()
    }

    /// Bare devices and other sizes than the mock's are added: a mock of those sizes.
    fn make(&mut self, args: &[&str], meters: Option<Vec<u16>>) -> String {
        let (e, s) = (self.mock.eeprom.len(), self.mock.settings.len());
        if e > MOST || s > MOST || (meters.is_some() && e != MOST) {
            return refused(14);
        }
        if meters.iter().flatten().any(|&meter| s <= meter as usize) {
            return outside(7);
        }
        m2x4hd::set(half(args[3]), meters.as_deref().unwrap_or(&[]));
        let (hw_id, dsp_version, kind) = (byte(args[0]), byte(args[1]), kind(args[2]));
        self.mock = match meters {
            Some(_) => MockDevice::new(hw_id, dsp_version, kind),
            None => MockDevice {
                hw_id,
                dsp_version,
                kind,
                eeprom: vec![0xFF; e],
                settings: vec![0; s],
                ..Default::default()
            },
        };
        self.mock.settings.truncate(s);
        let mock = &self.mock;
        format!(
            "{} {} {} {} {:?} {}",
            mock.hw_id,
            mock.dsp_version,
            mock.firmware_version.0,
            mock.firmware_version.1,
            mock.kind,
            mock.spec.fir_max_taps
        )
    }

    fn wrongly_sized(&self) -> bool {
        self.mock.eeprom.len() > MOST || self.mock.settings.len() > MOST
    }

    /// Calls the mock and finishes its answer; the memories stay as they were where either refuses.
    fn settled<T>(
        &mut self,
        call: impl FnOnce(&mut MockDevice) -> T,
        finish: impl FnOnce(T) -> String,
    ) -> String {
        let (eeprom, settings) = (self.mock.eeprom.clone(), self.mock.settings.clone());
        let answer = match caught(|| call(&mut self.mock)) {
            Some(response) => caught(|| finish(response)).unwrap_or_else(|| outside(8)),
            None => outside(7),
        };
        if !is_accepted(&answer) {
            (self.mock.eeprom, self.mock.settings) = (eeprom, settings);
        }
        answer
    }

    /// Document 01's order is 14, 1, 2, 3, 4, 7, 5, 6.
    fn send(&mut self, frame: &[u8], room: usize) -> String {
        let answer = if self.wrongly_sized() {
            unwritten(14, room)
        } else {
            match received(frame) {
                Ok(command) => self.settled(
                    |mock| mock.execute(&command),
                    |response| put(&response, framed, room),
                ),
                Err(answer) if answer.starts_with(OUTSIDE) => answer,
                Err(answer) => format!("{answer} {}", untouched(room)),
            }
        };
        let count = if is_accepted(&answer) { &mut self.accepted } else { &mut self.refused };
        *count = count.saturating_add(1);
        answer
    }

    /// Executes a caller's record. A NaN that it leaves in the settings is the port's one NaN from then
    /// on, and the answer says so.
    fn executed(&mut self, command: &Commands, finish: impl FnOnce(Responses) -> String) -> String {
        let answer = self.settled(|mock| mock.execute(command), finish);
        if let (Commands::Write { addr, value: Value::Float(x) }, true) = (command, is_accepted(&answer)) {
            let word = &mut self.mock.settings[addr.val as usize];
            if x.is_nan() && *word == x.to_bits() && *word != NAN {
                *word = NAN;
                return format!("{STORED}{answer}");
            }
        }
        answer
    }

    /// The answer as a record, with its payload. 14, then 7.
    fn execute(&mut self, args: &[&str]) -> String {
        let payload = bytes(args[0]);
        if self.wrongly_sized() {
            return refused(14);
        }
        match directly(&args[1..], &payload) {
            Some(command) => self.executed(&command, |response| record(&response)),
            None => refused(7),
        }
    }

    /// The answer as a packet: 14, 7, 8, where the Rust panics, then 5 and 6.
    fn execute_into(&mut self, args: &[&str]) -> String {
        let (payload, room) = (bytes(args[0]), number(args[1]));
        if self.wrongly_sized() {
            return unwritten(14, room);
        }
        match directly(&args[2..], &payload) {
            Some(command) => self.executed(&command, |response| put(&response, whole, room)),
            None => unwritten(7, room),
        }
    }

    /// The settings are no concern of these calls.
    fn write(&mut self, call: impl FnOnce(&mut MockDevice)) -> String {
        if self.mock.eeprom.len() > MOST {
            return refused(14);
        }
        self.settled(call, |()| "done".to_string())
    }

    /// 14, then 6.
    fn save(&self, room: usize) -> String {
        if self.wrongly_sized() {
            return unwritten(14, room);
        }
        written(&saves::save(&self.mock), room)
    }

    fn keep(&mut self, room: usize) -> String {
        if self.wrongly_sized() {
            return refused(14);
        }
        let save = saves::save(&self.mock);
        if room < save.len() {
            return refused(6);
        }
        self.kept = save;
        self.kept_from = self.memories();
        self.kept.len().to_string()
    }

    /// The mock that executed every frame of the save has the memories that were saved.
    fn restore(&mut self) -> String {
        let kept = self.kept.clone();
        let answer = self.replay(&kept);
        assert!(!is_accepted(&answer) || self.memories() == self.kept_from);
        answer
    }

    /// 14, then the first fault: the memories then stay as they were.
    fn replay(&mut self, stream: &[u8]) -> String {
        if self.wrongly_sized() {
            return refused(14);
        }
        let before = self.memories();
        let lent = (self.mock.eeprom.len(), self.mock.settings.len());
        let replayed = saves::sizes(stream).and_then(|(sizes, fields)| match sizes == lent {
            true => saves::run(&mut self.mock, fields),
            false => Err(14),
        });
        if let Err(number) = replayed {
            (self.mock.eeprom, self.mock.settings) = before;
            return refused(number);
        }
        "done".to_string()
    }

    fn memories(&self) -> (Vec<u8>, Vec<u32>) {
        (self.mock.eeprom.clone(), self.mock.settings.clone())
    }

    fn digest(&self) -> String {
        let (eeprom, settings) = (&self.mock.eeprom, &self.mock.settings);
        let bytes = digest(eeprom.iter().map(|&byte| byte as u32));
        let words = digest(settings.iter().copied());
        format!("{} {bytes} {} {words}", eeprom.len(), settings.len())
    }
}

/// Against the save's own sizes.
fn judge(stream: &[u8]) -> String {
    let judged = saves::sizes(stream).and_then(|((e, s), fields)| {
        if e > MOST || s > MOST {
            return Err(14);
        }
        let (eeprom, settings) = (vec![0xFF; e], vec![0; s]);
        saves::run(&mut MockDevice { eeprom, settings, ..Default::default() }, fields)?;
        Ok(format!("{e} {s}"))
    });
    judged.unwrap_or_else(refused)
}

fn is_accepted(answer: &str) -> bool {
    !answer.starts_with(OUTSIDE) && !answer.starts_with("refused")
}

fn received(frame: &[u8]) -> Result<Commands, String> {
    let packet = packet::unframe(Bytes::copy_from_slice(frame)).map_err(|error| match error {
        ParseError::EmptyPacket => refused(1),
        ParseError::UnexpectedLength { .. } => refused(2),
    })?;
    caught(|| Commands::from_bytes(packet))
        .ok_or_else(|| outside(4))?
        .map_err(|error| match error {
            ProtocolError::DecodeError(_) => refused(3),
            _ => "(another error)".to_string(),
        })
}

/// A record's command. A place outside the bytes is refused where the device looks at it: added.
fn directly(record: &[&str], payload: &[u8]) -> Option<Commands> {
    let mut lent = Lent { bytes: payload, outside: false };
    let command = records::command(record, &mut lent);
    let looks = matches!(command, Commands::WriteMemory { .. } | Commands::Write { .. });
    (!(looks && lent.outside)).then_some(command)
}

fn put(response: &Responses, form: fn(&[u8]) -> Bytes, room: usize) -> String {
    let packet = response.to_bytes();
    if packet.len() > LONGEST {
        return outside(5);
    }
    written(&form(&packet), room)
}

/// The port has the payload at the start of bytes that it is lent for it.
fn record(response: &Responses) -> String {
    let payload: Vec<u8> = match response {
        Responses::MemoryData(view) => view.data.to_vec(),
        Responses::FloatData(view) => view.data.iter().flat_map(|x| x.to_le_bytes()).collect(),
        _ => Vec::new(),
    };
    format!("{} {}", answers::executed(response, &payload), hex(&payload))
}

fn kind(name: &str) -> DeviceKind {
    use DeviceKind::*;
    [
        Generic, M4x10Hd, M10x10Hd, MSharc4x8, M2x4Hd, Shd, DDRC24, DDRC88BM, Nanodigi2x8, C8x12v2,
        M2x4, Flex, FlexHtx,
    ]
    .into_iter()
    .find(|kind| format!("{kind:?}") == name)
    .unwrap()
}

fn meters(word: &str) -> Vec<u16> {
    let pair = |two: &[u8]| u16::from_be_bytes([two[0], two[1]]);
    bytes(word).chunks(2).map(pair).collect()
}

/// What there is of it.
fn part<'a, T>(memory: &'a [T], args: &[&str]) -> &'a [T] {
    let start = number(args[0]).min(memory.len());
    &memory[start..(start + number(args[1])).min(memory.len())]
}

fn peek_words(words: &[u32]) -> String {
    if words.is_empty() {
        return "-".to_string();
    }
    words.iter().map(|&word| word32(word)).collect::<Vec<_>>().join(" ")
}

fn digest(values: impl Iterator<Item = u32>) -> String {
    word32(values.fold(0, |sum: u32, x| sum.wrapping_mul(16_777_619).wrapping_add(x)))
}
