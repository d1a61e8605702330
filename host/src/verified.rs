//! The C functions on tables: the only unsafe code of the host.
//!
//! What they ask of a caller (include/wargnifla.h) holds of every call here for one reason. Each pointer and length come from a slice, or from a
//! vector's room, so it is valid for its length; and what is written is borrowed mutably, so nothing else that is lent overlaps it.

#![allow(unsafe_code)]

use crate::MOST_ENTRIES;
use crate::ffi::{self, Segment};
use crate::tables::{Counts, LABEL_BYTES, RELOC_BYTES, Tables};

/// The bytes of an `Elf64_Rela` entry.
pub(crate) const RELA_BYTES: usize = 24;

/// What finish reports, and join of a whole: 6 words.
#[derive(Clone, Debug, PartialEq, Eq)]
pub(crate) struct Record([u8; 24]);

impl Record {
    fn word(&self, index: usize) -> u32 {
        let at = 4 * index;
        u32::from_le_bytes(self.0[at..at + 4].try_into().expect("four bytes"))
    }

    pub fn code_len(&self) -> usize {
        self.word(1) as usize
    }

    pub fn alignment(&self) -> u32 {
        self.word(2)
    }

    pub fn layouts(&self) -> u32 {
        self.word(3)
    }

    fn label_count(&self) -> usize {
        self.word(4) as usize
    }

    fn reloc_count(&self) -> usize {
        self.word(5) as usize
    }

    pub fn bytes(&self) -> &[u8] {
        &self.0
    }
}

/// Starts a recording: the refusal, or 0.
pub(crate) fn start(counts: &mut Counts, arch: u32, symbols: u32) -> u32 {
    let counts = &mut counts.0;
    // SAFETY: `counts` is a live array of the length that is passed, borrowed for this call alone.
    unsafe { ffi::wargnifla_start(arch, symbols, counts.as_mut_ptr(), counts.len()) }
}

/// Runs a sheet: its refusal, or 0, and the index that goes with it.
pub(crate) fn run_sheet(tables: &mut Tables, sheet: &[u8]) -> (u32, u32) {
    let mut index = 0;
    // SAFETY: every pointer and length are those of one slice; `index`, the counts and each table are distinct places, borrowed mutably, and
    // `sheet`, borrowed beside them, overlaps none.
    let number = unsafe {
        ffi::wargnifla_run_sheet(
            sheet.as_ptr(),
            sheet.len(),
            &raw mut index,
            tables.counts.0.as_mut_ptr(),
            tables.counts.0.len(),
            tables.code.bytes.as_mut_ptr(),
            tables.code.bytes.len(),
            tables.labels.bytes.as_mut_ptr(),
            tables.labels.bytes.len(),
            tables.events.bytes.as_mut_ptr(),
            tables.events.bytes.len(),
            tables.uses.bytes.as_mut_ptr(),
            tables.uses.bytes.len(),
            tables.refs.bytes.as_mut_ptr(),
            tables.refs.bytes.len(),
            tables.constants.bytes.as_mut_ptr(),
            tables.constants.bytes.len(),
            tables.asked.bytes.as_mut_ptr(),
            tables.asked.bytes.len(),
            tables.relocs.bytes.as_mut_ptr(),
            tables.relocs.bytes.len(),
        )
    };
    (number, index)
}

/// Finishes a recording, into at most so many bytes: its code and what it reports, or the number of a refusal.
pub(crate) fn finish(
    tables: &mut Tables,
    segments: &mut [Segment],
    most_code: usize,
) -> Result<(Vec<u8>, Record), u32> {
    let mut record = Record([0; 24]);
    // Not cleared: finish writes the code from the first byte on.
    let mut output = Vec::with_capacity(most_code);
    // SAFETY: every pointer and length are those of one slice, but for `output`, which has room for `most_code` bytes; `segments` counts segments,
    // as the function does. Counts, labels, relocations, segments, output and record are distinct places, borrowed mutably, and the tables that are
    // only read overlap none. That the output's bytes were never written does no harm: they are lent to another language's code, and by its contract
    // neither the answer nor anything that it writes depends on what stood there.
    let number = unsafe {
        ffi::wargnifla_finish(
            tables.counts.0.as_mut_ptr(),
            tables.counts.0.len(),
            tables.code.bytes.as_ptr(),
            tables.code.bytes.len(),
            tables.labels.bytes.as_mut_ptr(),
            tables.labels.bytes.len(),
            tables.events.bytes.as_ptr(),
            tables.events.bytes.len(),
            tables.uses.bytes.as_ptr(),
            tables.uses.bytes.len(),
            tables.refs.bytes.as_ptr(),
            tables.refs.bytes.len(),
            tables.constants.bytes.as_ptr(),
            tables.constants.bytes.len(),
            tables.asked.bytes.as_ptr(),
            tables.asked.bytes.len(),
            tables.relocs.bytes.as_mut_ptr(),
            tables.relocs.bytes.len(),
            segments.as_mut_ptr(),
            segments.len(),
            output.as_mut_ptr(),
            most_code,
            record.0.as_mut_ptr(),
            record.0.len(),
        )
    };
    if number != 0 {
        return Err(number);
    }
    assert!(record.code_len() <= most_code);
    // SAFETY: where finish accepts, the output's first bytes, as many as it reports, are the finished code, by its contract: so it has written them.
    // They are within the vector's room, by the line above.
    unsafe { output.set_len(record.code_len()) };
    Ok((output, record))
}

/// Appends bytes: the refusal, or 0.
pub(crate) fn put_bytes(tables: &mut Tables, bytes: &[u8]) -> u32 {
    // SAFETY: every pointer and length are those of one slice; counts and code are distinct places, borrowed mutably, and `bytes` overlaps neither.
    unsafe {
        ffi::wargnifla_put_bytes(
            tables.counts.0.as_mut_ptr(),
            tables.counts.0.len(),
            tables.code.bytes.as_mut_ptr(),
            tables.code.bytes.len(),
            bytes.as_ptr(),
            bytes.len(),
        )
    }
}

/// Pads to a multiple where that takes at most so many bytes: the refusal, or 0.
pub(crate) fn align(tables: &mut Tables, multiple: u32, most: u32) -> u32 {
    // SAFETY: every pointer and length are those of one slice; counts, code and events are distinct places, borrowed mutably.
    unsafe {
        ffi::wargnifla_align(
            tables.counts.0.as_mut_ptr(),
            tables.counts.0.len(),
            tables.code.bytes.as_mut_ptr(),
            tables.code.bytes.len(),
            tables.events.bytes.as_mut_ptr(),
            tables.events.bytes.len(),
            multiple,
            most,
        )
    }
}

/// Adds a constant: the refusal, or 0, and the constant's number.
pub(crate) fn add_constant(tables: &mut Tables, bytes: &[u8]) -> (u32, u32) {
    let mut constant = u32::MAX;
    // SAFETY: every pointer and length are those of one slice; `constant`, the counts and the table are distinct places, borrowed mutably, and
    // `bytes` overlaps none.
    let number = unsafe {
        ffi::wargnifla_add_constant(
            tables.counts.0.as_mut_ptr(),
            tables.counts.0.len(),
            tables.constants.bytes.as_mut_ptr(),
            tables.constants.bytes.len(),
            bytes.as_ptr(),
            bytes.len(),
            &raw mut constant,
        )
    };
    (number, constant)
}

/// Adds a relocation: the refusal, or 0.
pub(crate) fn add_reloc(
    tables: &mut Tables,
    offset: u32,
    kind: u32,
    target: u32,
    addend: i64,
) -> u32 {
    // SAFETY: every pointer and length are those of one slice; counts and relocations are distinct places, borrowed mutably, and the labels, which
    // are only read, overlap neither.
    unsafe {
        ffi::wargnifla_add_reloc(
            tables.counts.0.as_mut_ptr(),
            tables.counts.0.len(),
            tables.labels.bytes.as_ptr(),
            tables.labels.bytes.len(),
            tables.relocs.bytes.as_mut_ptr(),
            tables.relocs.bytes.len(),
            offset,
            kind,
            target,
            addend.cast_unsigned(),
        )
    }
}

/// Writes what finish left of relocations as `Elf64_Rela` entries: their bytes, or the number of a refusal.
pub(crate) fn write_relas(
    record: &Record,
    labels: &[u8],
    relocs: &[u8],
    section: u32,
) -> Result<Vec<u8>, u32> {
    let mut output = vec![0; record.reloc_count() * RELA_BYTES];
    // SAFETY: every pointer and length are those of one slice; `output` is borrowed mutably, and what is only read overlaps it nowhere.
    let number = unsafe {
        ffi::wargnifla_write_relas(
            record.0.as_ptr(),
            record.0.len(),
            labels.as_ptr(),
            labels.len(),
            relocs.as_ptr(),
            relocs.len(),
            section,
            output.as_mut_ptr(),
            output.len(),
        )
    };
    match number {
        0 => Ok(output),
        _ => Err(number),
    }
}

/// Reads `Elf64_Rela` entries: their table, with the type in the place of the kind, or the number of a refusal.
pub(crate) fn read_relas(relas: &[u8]) -> Result<Vec<u8>, u32> {
    let count = MOST_ENTRIES.min(relas.len() / RELA_BYTES);
    let mut entries = vec![0; count * RELOC_BYTES];
    // SAFETY: every pointer and length are those of one slice; `entries` is borrowed mutably, and `relas` overlaps it nowhere.
    let number = unsafe {
        ffi::wargnifla_read_relas(
            relas.as_ptr(),
            relas.len(),
            entries.as_mut_ptr(),
            entries.len(),
        )
    };
    match number {
        0 => Ok(entries),
        _ => Err(number),
    }
}

/// What is lent of pieces that are to be joined, one's behind the other's.
#[derive(Default)]
pub(crate) struct Lent {
    pub pieces: Vec<u8>,
    pub code: Vec<u8>,
    pub labels: Vec<u8>,
    pub relocs: Vec<u8>,
    pub definitions: Vec<u8>,
}

/// Pieces joined: their code, the tables of all labels and of the relocations that remain, and what is reported.
pub(crate) struct Whole {
    pub code: Vec<u8>,
    pub labels: Vec<u8>,
    pub relocs: Vec<u8>,
    pub record: Record,
}

/// Joins pieces, into so many bytes: the whole, or the number of a refusal.
pub(crate) fn join(lent: &Lent, room: usize) -> Result<Whole, u32> {
    let mut whole = Whole {
        code: vec![0; room],
        labels: vec![0; lent.labels.len()],
        relocs: vec![0; lent.relocs.len()],
        record: Record([0; 24]),
    };
    // SAFETY: every pointer and length are those of one vector or array; code, labels, relocations and record of the whole are distinct places,
    // borrowed mutably, and what is lent, borrowed beside them, overlaps none.
    let number = unsafe {
        ffi::wargnifla_join(
            lent.pieces.as_ptr(),
            lent.pieces.len(),
            lent.code.as_ptr(),
            lent.code.len(),
            lent.labels.as_ptr(),
            lent.labels.len(),
            lent.relocs.as_ptr(),
            lent.relocs.len(),
            lent.definitions.as_ptr(),
            lent.definitions.len(),
            whole.code.as_mut_ptr(),
            whole.code.len(),
            whole.labels.as_mut_ptr(),
            whole.labels.len(),
            whole.relocs.as_mut_ptr(),
            whole.relocs.len(),
            whole.record.0.as_mut_ptr(),
            whole.record.0.len(),
        )
    };
    if number != 0 {
        return Err(number);
    }
    whole.code.truncate(whole.record.code_len());
    whole
        .labels
        .truncate(whole.record.label_count() * LABEL_BYTES);
    whole
        .relocs
        .truncate(whole.record.reloc_count() * RELOC_BYTES);
    Ok(whole)
}
