//! Stands in for the 2x4HD's table, which was not supplied. The mock takes its FIR taps and its
//! meters from here, so here they are values that the driver sets.
use super::{Device, Dialect, Input};
use std::{
    ops::Deref,
    sync::atomic::{AtomicPtr, Ordering},
};

pub const EMPTY: Device = Device {
    product_name: "",
    sources: &[],
    inputs: &[],
    outputs: &[],
    fir_max_taps: 0,
    internal_sampling_rate: 0,
    dialect: Dialect::const_default(),
};

static NONE: Device = EMPTY;

pub struct Table(AtomicPtr<Device>);

pub static DEVICE: Table = Table(AtomicPtr::new(std::ptr::null_mut()));

impl Deref for Table {
    type Target = Device;

    fn deref(&self) -> &Device {
        let table = self.0.load(Ordering::SeqCst);
        if table.is_null() {
            &NONE
        } else {
            // Set by `set` alone, to a table that is never freed.
            unsafe { &*table }
        }
    }
}

/// The taps and the meters of every mock that is made from now on.
pub fn set(fir_max_taps: u16, meters: &[u16]) {
    let inputs: Vec<Input> = meters
        .iter()
        .map(|&meter| Input {
            gate: None,
            meter: Some(meter),
            peq: &[],
            routing: &[],
        })
        .collect();
    let table = Device {
        inputs: Box::leak(inputs.into_boxed_slice()),
        fir_max_taps,
        ..EMPTY
    };
    DEVICE.0.store(Box::leak(Box::new(table)), Ordering::SeqCst);
}

