//! The C functions on tables that are lent by hand.

use std::array;

use wargnifla::{Arch, ffi, read_text, write_sheet};

/// Tables of a few entries that are lent by hand.
pub struct Lent {
    pub counts: [u8; 52],
    pub code: [u8; 32],
    pub labels: [u8; 4 * 4],
    pub events: [u8; 4 * 20],
    pub uses: [u8; 4 * 12],
    pub refs: [u8; 4 * 16],
    pub relocs: [u8; 4 * 24],
    pub record: [u8; 24],
}

pub const CODE: usize = 4;
pub const LABELS: usize = 5;
pub const EVENTS: usize = 6;
pub const USES: usize = 7;
pub const RELOCS: usize = 11;
pub const OPEN: usize = 12;

impl Lent {
    pub fn new(arch: Arch) -> Self {
        let mut lent = Self {
            counts: [0; 52],
            code: [0; 32],
            labels: [0; 16],
            events: [0; 80],
            uses: [0; 48],
            refs: [0; 64],
            relocs: [0; 96],
            record: [0; 24],
        };
        let counts = &mut lent.counts;
        // SAFETY: `counts` is a live array of the length that is passed.
        let started =
            unsafe { ffi::wargnifla_start(arch.number(), 0, counts.as_mut_ptr(), counts.len()) };
        assert_eq!((started, lent.count(OPEN)), (0, 0));
        lent
    }

    pub fn count(&self, word: usize) -> u32 {
        u32::from_le_bytes(array::from_fn(|byte| self.counts[4 * word + byte]))
    }

    pub fn set_count(&mut self, word: usize, number: u32) {
        self.counts[4 * word..][..4].copy_from_slice(&number.to_le_bytes());
    }

    /// The answer to a sheet, the index that goes with it, and the number that is handed back.
    pub fn run(&mut self, text: &str) -> (u32, u32, u32) {
        let sheet = write_sheet(&read_text(text).unwrap().calls).unwrap();
        let mut index = 0;
        // SAFETY: every pointer and length are those of one slice, or none; what is written is borrowed mutably and overlaps nothing.
        let number = unsafe {
            ffi::wargnifla_run_sheet(
                sheet.as_ptr(),
                sheet.len(),
                &raw mut index,
                self.counts.as_mut_ptr(),
                self.counts.len(),
                self.code.as_mut_ptr(),
                self.code.len(),
                self.labels.as_mut_ptr(),
                self.labels.len(),
                self.events.as_mut_ptr(),
                self.events.len(),
                self.uses.as_mut_ptr(),
                self.uses.len(),
                self.refs.as_mut_ptr(),
                self.refs.len(),
                [].as_mut_ptr(),
                0,
                [].as_mut_ptr(),
                0,
                self.relocs.as_mut_ptr(),
                self.relocs.len(),
            )
        };
        (number, index, self.count(OPEN))
    }

    /// A relocation against a label, lent so many bytes of labels.
    pub fn relocate(&mut self, label: u32, labels: &[u8]) -> (u32, u32) {
        // SAFETY: as above.
        let number = unsafe {
            ffi::wargnifla_add_reloc(
                self.counts.as_mut_ptr(),
                self.counts.len(),
                labels.as_ptr(),
                labels.len(),
                self.relocs.as_mut_ptr(),
                self.relocs.len(),
                0,
                0,
                (1 << 31) + label,
                0,
            )
        };
        (number, self.count(OPEN))
    }

    /// The answer to an alignment by the direct call.
    pub fn align(&mut self, multiple: u32, most: u32) -> u32 {
        align(
            &mut self.counts,
            &mut self.code,
            &mut self.events,
            multiple,
            most,
        )
    }

    pub fn finish(&mut self) -> (u32, u32) {
        let mut output = [0; 32];
        // SAFETY: as above.
        let number = unsafe {
            ffi::wargnifla_finish(
                self.counts.as_mut_ptr(),
                self.counts.len(),
                self.code.as_ptr(),
                self.code.len(),
                self.labels.as_mut_ptr(),
                self.labels.len(),
                self.events.as_ptr(),
                self.events.len(),
                self.uses.as_ptr(),
                self.uses.len(),
                self.refs.as_ptr(),
                self.refs.len(),
                [].as_ptr(),
                0,
                [].as_ptr(),
                0,
                self.relocs.as_mut_ptr(),
                self.relocs.len(),
                [].as_mut_ptr(),
                0,
                output.as_mut_ptr(),
                output.len(),
                self.record.as_mut_ptr(),
                self.record.len(),
            )
        };
        (number, self.count(OPEN))
    }
}

/// The answer to an alignment by the direct call, lent these counts, this code and these events.
pub fn align(
    counts: &mut [u8],
    code: &mut [u8],
    events: &mut [u8],
    multiple: u32,
    most: u32,
) -> u32 {
    // SAFETY: every pointer and length are those of one slice, borrowed mutably, so none overlaps another.
    unsafe {
        ffi::wargnifla_align(
            counts.as_mut_ptr(),
            counts.len(),
            code.as_mut_ptr(),
            code.len(),
            events.as_mut_ptr(),
            events.len(),
            multiple,
            most,
        )
    }
}
