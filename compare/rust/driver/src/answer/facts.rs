//! lib.rs, device/probe.rs, source.rs and eeprom.rs, all device features on
use minidsp_protocol::{eeprom, DeviceInfo, Source};

use super::words::byte;

pub fn answer(verb: &str, args: &[&str]) -> Option<String> {
    Some(match verb {
        "kind" => format!("{:?}", device(args).device_kind()),
        "dirac" => (device(args).supports_dirac() as u8).to_string(),
        "sources" => Source::mapping(&device(args))
            .iter()
            .map(|(source, id)| format!("{source:?} {id}"))
            .collect::<Vec<_>>()
            .join(" "),
        "source_from" => format!("{:?}", Source::from_id(byte(args[2]), &device(args))),
        "source_to" => source(args[2]).to_id(&device(args)).to_string(),
        "eeprom" => addresses(),
        _ => return None,
    })
}

pub fn device(args: &[&str]) -> DeviceInfo {
    DeviceInfo {
        hw_id: byte(args[0]),
        fw_major: 1,
        fw_minor: 13,
        dsp_version: byte(args[1]),
        serial: 0,
    }
}

fn source(name: &str) -> Source {
    use Source::*;
    [
        NotInstalled, Analog, Toslink, Spdif, Usb, Aesebu, Rca, Xlr, Lan, I2S, Bluetooth, Hdmi,
    ]
    .into_iter()
    .find(|source| format!("{source:?}") == name)
    .unwrap()
}

fn addresses() -> String {
    [
        ("FIRMWARE_VERSION", eeprom::FIRMWARE_VERSION),
        ("TIMESTAMP", eeprom::TIMESTAMP),
        ("TIMESTAMP_2X4", eeprom::TIMESTAMP_2X4),
        ("PRESET", eeprom::PRESET),
        ("SOURCE", eeprom::SOURCE),
        ("SOURCE_ASYNC", eeprom::SOURCE_ASYNC),
        ("MASTER_VOLUME", eeprom::MASTER_VOLUME),
        ("MUTE", eeprom::MUTE),
        ("DIRAC_BYPASS", eeprom::DIRAC_BYPASS),
        ("CHANNEL_MODE", eeprom::CHANNEL_MODE),
        ("SERIAL", eeprom::SERIAL),
        ("SERIAL_SHORT", eeprom::SERIAL_SHORT),
    ]
    .map(|(name, address)| format!("{name} {address}"))
    .join(" ")
}
