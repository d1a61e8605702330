//! The C functions, lent memory that stands between guards.

use std::marker::PhantomData;

use wargnifla::ffi::{self, Segment};

use crate::vast::{self, VAST};
use crate::{Boundary, Lent, Part, Reply, Vast};

/// Bytes before and after all that is lent.
const GUARD: usize = 32;
const GUARD_BYTE: u8 = 0xA5;

/// Bytes that are lent, inside a larger piece of memory.
#[derive(Default)]
pub struct Guarded {
    bytes: Vec<u8>,
    start: usize,
    len: usize,
}

impl Guarded {
    /// Takes new content, which starts `shift` bytes after a multiple of 16.
    fn set(&mut self, content: &[u8], shift: usize) {
        self.len = content.len();
        self.bytes.clear();
        self.bytes
            .resize(self.len + 2 * GUARD + 16 + shift, GUARD_BYTE);
        let aligned = self.bytes[GUARD..].as_ptr().align_offset(16);
        self.start = GUARD + aligned + shift;
        self.bytes[self.start..][..self.len].copy_from_slice(content);
    }

    pub fn content(&self) -> &[u8] {
        &self.bytes[self.start..][..self.len]
    }

    pub fn content_mut(&mut self) -> &mut [u8] {
        &mut self.bytes[self.start..][..self.len]
    }

    /// The last byte before what is lent, or the first after it.
    pub fn guard_mut(&mut self, after: bool) -> &mut u8 {
        let at = if after {
            self.start + self.len
        } else {
            self.start - 1
        };
        &mut self.bytes[at]
    }

    pub fn guards_stand(&self) -> bool {
        let (before, rest) = self.bytes.split_at(self.start);
        let after = &rest[self.len..];
        before.iter().chain(after).all(|byte| *byte == GUARD_BYTE)
    }

    /// Not null, even where nothing is lent.
    fn as_mut_ptr(&mut self) -> *mut u8 {
        self.content_mut().as_mut_ptr()
    }
}

/// The C functions on guarded memory.
///
/// Each `unsafe` below lends pointers to parts that live in `self`, are apart from one another, are as long as is said, and are read and written by
/// no one else before the call ends: what include/wargnifla.h asks of a caller.
#[derive(Default)]
pub struct Ours {
    parts: [Guarded; Part::COUNT],
    /// What was lent last to be read alone: a sheet, or bytes.
    read: Guarded,
}

impl Ours {
    /// Takes a copy of what is lent. Byte tables start `shift` bytes past a multiple of 16, segments on a multiple of 4.
    pub fn lend(&mut self, lent: &Lent, shift: usize) {
        for part in Part::ALL {
            let shift = match part {
                Part::Segments => shift / 4 * 4,
                _ => shift,
            };
            self.parts[part as usize].set(&lent[part], shift);
        }
    }

    pub fn part(&self, part: Part) -> &Guarded {
        &self.parts[part as usize]
    }

    pub fn part_mut(&mut self, part: Part) -> &mut Guarded {
        &mut self.parts[part as usize]
    }

    /// Looks up where everything that is lent stands, once for many calls.
    pub fn lending(&mut self) -> Lending<'_> {
        Lending {
            pointers: Part::ALL.map(|part| self.pointer(part)),
            lent: PhantomData,
        }
    }

    /// What the last call was lent to be read alone.
    pub fn read(&self) -> &Guarded {
        &self.read
    }

    pub fn read_mut(&mut self) -> &mut Guarded {
        &mut self.read
    }

    fn pointer(&mut self, part: Part) -> (*mut u8, usize) {
        let part = self.part_mut(part);
        (part.as_mut_ptr(), part.len)
    }

    /// Takes a copy of what is lent to be read alone.
    fn lend_to_read(&mut self, bytes: &[u8]) -> (*const u8, usize) {
        self.read.set(bytes, bytes.len() % 8);
        (self.read.as_mut_ptr().cast_const(), bytes.len())
    }
}

impl Boundary for Ours {
    fn start(&mut self, arch: u32, symbols: u32) -> Reply {
        self.lending().start(arch, symbols)
    }

    fn run_sheet(&mut self, sheet: &[u8]) -> Reply {
        let sheet = self.lend_to_read(sheet);
        self.lending().run_sheet_at(sheet)
    }

    fn put_bytes(&mut self, bytes: &[u8]) -> Reply {
        let bytes = self.lend_to_read(bytes);
        self.lending().put_bytes_at(bytes)
    }

    fn align(&mut self, multiple: u32, most: u32) -> Reply {
        let (counts, counts_len) = self.pointer(Part::Counts);
        let (code, code_len) = self.pointer(Part::Code);
        let (events, events_len) = self.pointer(Part::Events);
        // SAFETY: see `Ours`.
        let refusal = unsafe {
            ffi::wargnifla_align(
                counts, counts_len, code, code_len, events, events_len, multiple, most,
            )
        };
        Reply::new(refusal, 0)
    }

    fn add_constant(&mut self, bytes: &[u8]) -> Reply {
        let mut number = 0;
        let (bytes, bytes_len) = self.lend_to_read(bytes);
        let (counts, counts_len) = self.pointer(Part::Counts);
        let (constants, constants_len) = self.pointer(Part::Constants);
        // SAFETY: see `Ours`.
        let refusal = unsafe {
            ffi::wargnifla_add_constant(
                counts,
                counts_len,
                constants,
                constants_len,
                bytes,
                bytes_len,
                &mut number,
            )
        };
        Reply::new(refusal, number)
    }

    fn add_reloc(&mut self, offset: u32, kind: u32, target: u32, addend: i64) -> Reply {
        let (counts, counts_len) = self.pointer(Part::Counts);
        let (labels, labels_len) = self.pointer(Part::Labels);
        let (relocs, relocs_len) = self.pointer(Part::Relocations);
        // SAFETY: see `Ours`.
        let refusal = unsafe {
            ffi::wargnifla_add_reloc(
                counts,
                counts_len,
                labels,
                labels_len,
                relocs,
                relocs_len,
                offset,
                kind,
                target,
                addend.cast_unsigned(),
            )
        };
        Reply::new(refusal, 0)
    }

    fn finish(&mut self) -> Reply {
        self.lending().finish()
    }

    fn write_relas(&mut self, section: u32) -> Reply {
        self.lending().write_relas(section)
    }

    fn read_relas(&mut self) -> Reply {
        self.lending().read_relas()
    }

    fn join(&mut self, is_vast: Vast) -> Reply {
        self.lending().join(is_vast)
    }
}

/// Pointers to all that [`Ours`] lends, which it does not move as long as this lives.
pub struct Lending<'a> {
    pointers: [(*mut u8, usize); Part::COUNT],
    lent: PhantomData<&'a mut Ours>,
}

impl Lending<'_> {
    pub fn content(&self, part: Part) -> &[u8] {
        let (bytes, len) = self.pointers[part as usize];
        // SAFETY: the part has so many bytes and is written by the calls below alone, each of which borrows `self` mutably.
        unsafe { std::slice::from_raw_parts(bytes, len) }
    }

    pub fn start(&mut self, arch: u32, symbols: u32) -> Reply {
        let [(counts, counts_len), ..] = self.pointers;
        // SAFETY: see `Ours`.
        let refusal = unsafe { ffi::wargnifla_start(arch, symbols, counts, counts_len) };
        Reply::new(refusal, 0)
    }

    /// Runs a sheet where it stands, which is apart from all that is lent.
    pub fn run_sheet(&mut self, sheet: &[u8]) -> Reply {
        self.run_sheet_at((sheet.as_ptr(), sheet.len()))
    }

    fn run_sheet_at(&mut self, (sheet, sheet_len): (*const u8, usize)) -> Reply {
        let mut index = 0;
        let [
            (counts, counts_len),
            (code, code_len),
            (labels, labels_len),
            (events, events_len),
            (uses, uses_len),
            (refs, refs_len),
            (constants, constants_len),
            (asked, asked_len),
            (relocs, relocs_len),
            ..,
        ] = self.pointers;
        // SAFETY: see `Ours`.
        let refusal = unsafe {
            ffi::wargnifla_run_sheet(
                sheet,
                sheet_len,
                &mut index,
                counts,
                counts_len,
                code,
                code_len,
                labels,
                labels_len,
                events,
                events_len,
                uses,
                uses_len,
                refs,
                refs_len,
                constants,
                constants_len,
                asked,
                asked_len,
                relocs,
                relocs_len,
            )
        };
        Reply::new(refusal, index)
    }

    /// Appends bytes that stand apart from all that is lent.
    pub fn put_bytes(&mut self, bytes: &[u8]) -> Reply {
        self.put_bytes_at((bytes.as_ptr(), bytes.len()))
    }

    fn put_bytes_at(&mut self, (bytes, bytes_len): (*const u8, usize)) -> Reply {
        let [(counts, counts_len), (code, code_len), ..] = self.pointers;
        // SAFETY: see `Ours`.
        let refusal = unsafe {
            ffi::wargnifla_put_bytes(counts, counts_len, code, code_len, bytes, bytes_len)
        };
        Reply::new(refusal, 0)
    }

    pub fn finish(&mut self) -> Reply {
        let [
            (counts, counts_len),
            (code, code_len),
            (labels, labels_len),
            (events, events_len),
            (uses, uses_len),
            (refs, refs_len),
            (constants, constants_len),
            (asked, asked_len),
            (relocs, relocs_len),
            (segments, segments_bytes),
            (output, output_len),
            (record, record_len),
            ..,
        ] = self.pointers;
        // SAFETY: see `Ours`.
        let refusal = unsafe {
            ffi::wargnifla_finish(
                counts,
                counts_len,
                code,
                code_len,
                labels,
                labels_len,
                events,
                events_len,
                uses,
                uses_len,
                refs,
                refs_len,
                constants,
                constants_len,
                asked,
                asked_len,
                relocs,
                relocs_len,
                segments.cast::<Segment>(),
                segments_bytes / size_of::<Segment>(),
                output,
                output_len,
                record,
                record_len,
            )
        };
        Reply::new(refusal, 0)
    }

    pub fn write_relas(&mut self, section: u32) -> Reply {
        let (record, record_len) = self.pointers[Part::Record as usize];
        let (labels, labels_len) = self.pointers[Part::Labels as usize];
        let (relocs, relocs_len) = self.pointers[Part::Relocations as usize];
        let (output, output_len) = self.pointers[Part::Relas as usize];
        // SAFETY: see `Ours`.
        let refusal = unsafe {
            ffi::wargnifla_write_relas(
                record, record_len, labels, labels_len, relocs, relocs_len, section, output,
                output_len,
            )
        };
        Reply::new(refusal, 0)
    }

    pub fn read_relas(&mut self) -> Reply {
        let (relas, relas_len) = self.pointers[Part::Relas as usize];
        let (entries, entries_len) = self.pointers[Part::Entries as usize];
        // SAFETY: see `Ours`.
        let refusal = unsafe { ffi::wargnifla_read_relas(relas, relas_len, entries, entries_len) };
        Reply::new(refusal, 0)
    }

    /// What is vast stands in the place of the parts that are lent.
    pub fn join(&mut self, is_vast: Vast) -> Reply {
        let (pieces, pieces_len) = self.pointers[Part::Pieces as usize];
        let (mut code, mut code_len) = self.pointers[Part::Code as usize];
        let (labels, labels_len) = self.pointers[Part::Labels as usize];
        let (relocs, relocs_len) = self.pointers[Part::Relocations as usize];
        let (definitions, definitions_len) = self.pointers[Part::Definitions as usize];
        let (mut output, mut output_len) = self.pointers[Part::Output as usize];
        let (joined_labels, joined_labels_len) = self.pointers[Part::JoinedLabels as usize];
        let (joined_relocs, joined_relocs_len) = self.pointers[Part::JoinedRelocations as usize];
        let (record, record_len) = self.pointers[Part::Record as usize];
        if is_vast.is_code() {
            (code, code_len) = (vast::code().as_ptr().cast_mut(), VAST);
        }
        if let Some(start) = is_vast.output() {
            (output, output_len) = (start, VAST);
        }
        // SAFETY: see `Ours`. What is vast stays for good; an output that can't be written is lent to joins that are to be refused.
        let refusal = unsafe {
            ffi::wargnifla_join(
                pieces,
                pieces_len,
                code,
                code_len,
                labels,
                labels_len,
                relocs,
                relocs_len,
                definitions,
                definitions_len,
                output,
                output_len,
                joined_labels,
                joined_labels_len,
                joined_relocs,
                joined_relocs_len,
                record,
                record_len,
            )
        };
        Reply::new(refusal, 0)
    }
}
