//! Every hardware id with every dsp version.
use super::Random;

const SOURCES: &[&str] = &[
    "NotInstalled", "Analog", "Toslink", "Spdif", "Usb", "Aesebu", "Rca", "Xlr", "Lan", "I2S",
    "Bluetooth", "Hdmi",
];

pub fn requests(random: &mut Random, line: &mut dyn FnMut(String)) {
    line("eeprom".to_string());
    for hw in 0..=255 {
        for dsp in 0..=255 {
            line(format!("kind {hw} {dsp}"));
            line(format!("dirac {hw} {dsp}"));
            line(format!("sources {hw} {dsp}"));
        }
        for dsp in [0, 100, 101, random.below(256)] {
            for id in (0..=8).chain([255]) {
                line(format!("source_from {hw} {dsp} {id}"));
            }
            for source in SOURCES {
                line(format!("source_to {hw} {dsp} {source}"));
            }
        }
    }
}
