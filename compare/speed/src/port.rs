//! The port, linked in (compare/tools/archive): as it stands, and where the run was given a commit, as it was there.
use crate::side::{Out, Side};

macro_rules! port {
    ($side:ident, $module:ident, $name:literal, $frame:literal, $command:literal, $save:literal) => {
        pub const $side: Side = Side { name: $name, frame: $module::frame, command: $module::command, save: $module::save };

        mod $module {
            use super::Out;

            extern "C" {
                #[link_name = $frame]
                fn c_frame(packet: *const u8, n: usize, out: *mut u8, room: usize) -> u8;
                #[link_name = $command]
                fn c_command(id: u8, payload: *const u8, n: usize, out: *mut u8, room: usize) -> u8;
                #[link_name = $save]
                fn c_save(eeprom: *const u8, e: usize, settings: *const u32, s: usize, out: *mut u8, room: usize) -> u8;
            }

            pub fn frame(packet: &[u8], out: &mut Out) -> u8 {
                unsafe { c_frame(packet.as_ptr(), packet.len(), out.lent.as_mut_ptr(), out.lent.len()) }
            }

            pub fn command(id: u8, payload: &[u8], out: &mut Out) -> u8 {
                unsafe { c_command(id, payload.as_ptr(), payload.len(), out.lent.as_mut_ptr(), out.lent.len()) }
            }

            pub fn save(eeprom: &[u8], settings: &[u32], out: &mut Out) -> u8 {
                let (e, s) = (eeprom.len(), settings.len());
                unsafe { c_save(eeprom.as_ptr(), e, settings.as_ptr(), s, out.lent.as_mut_ptr(), out.lent.len()) }
            }
        }
    };
}

port!(NOW, now, "port", "wovenpike_frame", "wovenpike_command", "wovenpike_save");
#[cfg(feature = "before")]
port!(BEFORE, before, "before", "before_frame", "before_command", "before_save");
