//! The stored list of answers; reference/README.md has its format.

use crate::{Answer, Call, Error, Relocation, run_sheet, write_sheet};

/// Code up to this length is stored, longer code by its checksum alone.
const STORED: usize = 1024;

/// A recording: an architecture, a number of symbols and a sheet.
#[derive(Clone, Debug, PartialEq, Eq, Hash)]
pub struct Sample {
    pub arch: u32,
    pub symbols: u32,
    pub sheet: Vec<u8>,
}

impl Sample {
    /// The calls must fit a sheet.
    pub fn new(arch: u32, symbols: u32, calls: &[Call<'_>]) -> Self {
        let sheet = write_sheet(calls).expect("the calls fit a sheet");
        Self {
            arch,
            symbols,
            sheet,
        }
    }

    pub fn answer(&self) -> Answer {
        run_sheet(self.arch, self.symbols, &self.sheet)
    }
}

/// FNV-1a, 32 bits.
pub fn fnv1a(bytes: &[u8]) -> u32 {
    bytes.iter().fold(0x811C_9DC5, |hash, byte| {
        (hash ^ u32::from(*byte)).wrapping_mul(0x0100_0193)
    })
}

/// The list of some samples, each answered by the Rust.
pub fn write_list(samples: &[Sample]) -> Vec<u8> {
    let mut list = Vec::new();
    put(&mut list, samples.len() as u32);
    for sample in samples {
        let entry = write_entry(sample);
        put(&mut list, entry.len() as u32);
        list.extend_from_slice(&entry);
    }
    list
}

fn put(out: &mut Vec<u8>, word: u32) {
    out.extend_from_slice(&word.to_le_bytes());
}

fn write_entry(sample: &Sample) -> Vec<u8> {
    let mut out = Vec::new();
    put(&mut out, sample.arch);
    put(&mut out, sample.symbols);
    put(&mut out, sample.sheet.len() as u32);
    out.extend_from_slice(&sample.sheet);
    let answer = sample.answer();
    put(&mut out, answer.error.map_or(0, |error| error as u32));
    put(&mut out, answer.index);
    let Some(finished) = &answer.finished else {
        return out;
    };
    let code = finished.code();
    put(&mut out, code.len() as u32);
    put(&mut out, finished.alignment());
    put(&mut out, finished.layouts());
    put(&mut out, finished.labels().len() as u32);
    for label in finished.labels() {
        put(&mut out, *label);
    }
    let relocations = finished.relocations();
    put(&mut out, relocations.len() as u32);
    for relocation in relocations {
        put(&mut out, relocation.offset);
        put(&mut out, relocation.kind);
        put(&mut out, relocation.target);
        out.extend_from_slice(&relocation.addend.to_le_bytes());
    }
    put(&mut out, fnv1a(code));
    let stored = if code.len() <= STORED { code } else { &[] };
    put(&mut out, stored.len() as u32);
    out.extend_from_slice(stored);
    out
}

/// One recording of a list, read back.
#[derive(Clone, Debug)]
pub struct Entry {
    pub sample: Sample,
    pub error: Option<Error>,
    pub index: u32,
    pub record: Option<Record>,
}

/// What a list keeps of a finished recording.
#[derive(Clone, Debug)]
pub struct Record {
    pub length: u32,
    pub alignment: u32,
    pub layouts: u32,
    pub labels: Vec<u32>,
    pub relocations: Vec<Relocation>,
    pub checksum: u32,
    /// Empty where the length is above 1,024.
    pub code: Vec<u8>,
}

/// Reads a list back, or nothing if it breaks its format.
pub fn read_list(list: &[u8]) -> Option<Vec<Entry>> {
    let mut rest = list;
    let count = take_word(&mut rest)?;
    let mut entries = Vec::new();
    for _ in 0..count {
        let length = take_word(&mut rest)?;
        let mut entry = take(&mut rest, length)?;
        entries.push(read_entry(&mut entry)?);
        if !entry.is_empty() {
            return None;
        }
    }
    rest.is_empty().then_some(entries)
}

fn take<'a>(rest: &mut &'a [u8], count: u32) -> Option<&'a [u8]> {
    let (taken, left) = rest.split_at_checked(count as usize)?;
    *rest = left;
    Some(taken)
}

fn take_word(rest: &mut &[u8]) -> Option<u32> {
    let (word, left) = rest.split_first_chunk::<4>()?;
    *rest = left;
    Some(u32::from_le_bytes(*word))
}

fn read_entry(rest: &mut &[u8]) -> Option<Entry> {
    let arch = take_word(rest)?;
    let symbols = take_word(rest)?;
    let length = take_word(rest)?;
    let sheet = take(rest, length)?.to_vec();
    let number = take_word(rest)?;
    let index = take_word(rest)?;
    let (error, record) = match number {
        0 => (None, Some(read_record(rest)?)),
        _ => (Some(Error::from_number(number)?), None),
    };
    Some(Entry {
        sample: Sample {
            arch,
            symbols,
            sheet,
        },
        error,
        index,
        record,
    })
}

fn read_record(rest: &mut &[u8]) -> Option<Record> {
    let length = take_word(rest)?;
    let alignment = take_word(rest)?;
    let layouts = take_word(rest)?;
    let mut labels = Vec::new();
    for _ in 0..take_word(rest)? {
        labels.push(take_word(rest)?);
    }
    let mut relocations = Vec::new();
    for _ in 0..take_word(rest)? {
        relocations.push(read_relocation(rest)?);
    }
    let checksum = take_word(rest)?;
    let stored = take_word(rest)?;
    let code = take(rest, stored)?.to_vec();
    Some(Record {
        length,
        alignment,
        layouts,
        labels,
        relocations,
        checksum,
        code,
    })
}

fn read_relocation(rest: &mut &[u8]) -> Option<Relocation> {
    let offset = take_word(rest)?;
    let kind = take_word(rest)?;
    let target = take_word(rest)?;
    let low = take_word(rest)?;
    let high = take_word(rest)?;
    Some(Relocation {
        offset,
        kind,
        target,
        addend: (u64::from(high) << 32 | u64::from(low)) as i64,
    })
}
