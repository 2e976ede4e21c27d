//! The proved core decides: `Decides` over the library of epochs (c/hidewillow_epochs.h), whose law says what that comes to.
use crate::run::decides::{Back, Decides};
use std::ffi::c_void;
use std::ptr::null_mut;

/// Where the core's epochs lie, or nothing.
#[repr(C)]
struct Handle {
    at: *mut c_void,
}

/// What a call is told.
#[repr(C)]
struct Told {
    answer: u32,
    number: u64,
    names: usize,
}

const DONE: u32 = 0;
const SHOWN: u32 = 1;
const NONE: u32 = 2;
const YES: u32 = 3;

// SAFETY: the library's proofs ask of a handle that it be null or as the last call left it. Only what follows has one: it begins as
// null, is written by these calls alone, and is borrowed for each. All else are numbers.
unsafe extern "C" {
    safe fn hidewillow_epochs_open(epochs: &mut Handle, limit: u16) -> Told;
    safe fn hidewillow_epochs_begin(epochs: &mut Handle, checkpoint: u64) -> Told;
    safe fn hidewillow_epochs_changed(epochs: &mut Handle, name: u64, version: u64) -> Told;
    safe fn hidewillow_epochs_forgot(epochs: &mut Handle, name: u64) -> Told;
    safe fn hidewillow_epochs_told(epochs: &mut Handle, name: u64, version: u64) -> Told;
    safe fn hidewillow_epochs_lost(epochs: &mut Handle, name: u64) -> Told;
    safe fn hidewillow_epochs_said(epochs: &mut Handle, stream: u16, output: u64) -> Told;
    safe fn hidewillow_epochs_shown(epochs: &mut Handle, stream: u16) -> Told;
    safe fn hidewillow_epochs_accepted(epochs: &mut Handle) -> Told;
    safe fn hidewillow_epochs_refused(epochs: &mut Handle) -> Told;
    safe fn hidewillow_epochs_undone(epochs: &mut Handle, place: usize) -> Told;
    safe fn hidewillow_epochs_version(epochs: &mut Handle, name: u64) -> Told;
    safe fn hidewillow_epochs_has_changed(epochs: &mut Handle, name: u64) -> Told;
    safe fn hidewillow_epochs_may_act(epochs: &mut Handle) -> Told;
    safe fn hidewillow_epochs_undecided(epochs: &mut Handle) -> Told;
    safe fn hidewillow_epochs_close(epochs: &mut Handle);
}

impl Told {
    /// What there is, or nothing. Any other answer is want of memory, at which this program ends as at its own.
    fn place(self) -> Option<u64> {
        match self.answer {
            DONE | SHOWN => Some(self.number),
            NONE => None,
            other => panic!("the core answers {other}, for reason {}", self.number),
        }
    }
    /// What there has to be.
    fn number(self) -> u64 {
        self.place().expect("the core has an epoch that waits")
    }
    fn yes(&self) -> bool {
        self.answer == YES
    }
}

/// The core's epochs.
pub struct Proved(Handle);

impl Proved {
    /// So many epochs may wait for their replies at once.
    pub fn open(limit: u16) -> Proved {
        let mut handle = Handle { at: null_mut() };
        hidewillow_epochs_open(&mut handle, limit).number();
        Proved(handle)
    }
}

impl Drop for Proved {
    fn drop(&mut self) {
        hidewillow_epochs_close(&mut self.0);
    }
}

impl Decides for Proved {
    fn begin(&mut self, checkpoint: u64) {
        hidewillow_epochs_begin(&mut self.0, checkpoint).number();
    }
    fn changed(&mut self, name: u64, version: Option<u64>) {
        let told = match version {
            Some(version) => hidewillow_epochs_changed(&mut self.0, name, version),
            None => hidewillow_epochs_forgot(&mut self.0, name),
        };
        told.number();
    }
    fn has_changed(&mut self, name: u64) -> bool {
        hidewillow_epochs_has_changed(&mut self.0, name).yes()
    }
    fn told(&mut self, name: u64, version: Option<u64>) {
        let told = match version {
            Some(version) => hidewillow_epochs_told(&mut self.0, name, version),
            None => hidewillow_epochs_lost(&mut self.0, name),
        };
        told.number();
    }
    fn said(&mut self, stream: u16, output: u64) {
        hidewillow_epochs_said(&mut self.0, stream, output).number();
    }
    fn shown(&mut self, stream: u16) -> Option<u64> {
        hidewillow_epochs_shown(&mut self.0, stream).place()
    }
    fn accepted(&mut self) -> Option<u64> {
        hidewillow_epochs_accepted(&mut self.0).place()
    }
    fn refused(&mut self) -> Option<Back> {
        let back = hidewillow_epochs_refused(&mut self.0);
        let count = back.names;
        let checkpoint = back.place()?;
        let mut names = Vec::with_capacity(count);
        for place in 0..count {
            let name = hidewillow_epochs_undone(&mut self.0, place).number();
            names.push((name, hidewillow_epochs_version(&mut self.0, name).place()));
        }
        Some(Back { checkpoint, names })
    }
    fn may_act(&mut self) -> bool {
        hidewillow_epochs_may_act(&mut self.0).yes()
    }
    fn undecided(&mut self) -> usize {
        hidewillow_epochs_undecided(&mut self.0).number() as usize
    }
}
