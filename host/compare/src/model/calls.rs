//! The recording calls.

use super::counts::{Counts, is_recorded};
use super::open::{MOST_OPEN, changed};
use super::{Refusal, ceilings, fields};
use crate::{AARCH64, LABEL_TARGET, Lent, MOST_CODE, NONE, Part, X64};

/// The most bytes of a constant.
pub const MOST_CONSTANT: usize = 64;
/// The largest alignment.
const MOST_ALIGNMENT: u32 = 4096;
/// What an event's kind is in its table.
pub const JUMP: u32 = 1;
pub const ALIGNMENT: u32 = 2;
/// Request Eight: no call records one, but in a table made by hand an event of this kind names a label.
pub const BRANCH: u32 = 3;

/// One call on a recording. The most that an alignment may spend is its ceiling itself: what 0 stands for in a sheet is settled where the sheet is
/// read.
pub type Call<'a> = wargnifla::Call<&'a [u8]>;

/// Entries up to which a recording counts what is open after every call.
const FEW: usize = 4096;

/// A recording that calls are made on, once 1 to 4 are past.
pub struct Recording<'a> {
    lent: &'a mut Lent,
    counts: Counts,
    /// How many entries were open when they were last counted.
    counted: u32,
    /// How many calls were made since.
    waiting: u32,
}

impl<'a> Recording<'a> {
    pub fn new(lent: &'a mut Lent, counts: Counts) -> Self {
        Self {
            counted: counts.counted(lent),
            lent,
            counts,
            waiting: 0,
        }
    }

    /// Makes a call: its value (0 where it has none), or its refusal, which is recorded unless document 01 excepts it.
    pub fn make(&mut self, call: &Call<'_>) -> Result<u32, Refusal> {
        if self.counts.open > MOST_OPEN {
            return Err(1);
        }
        let result = self.answer(call);
        if let Err(refusal) = result
            && is_recorded(refusal)
            && !matches!(call, Call::Bind(_))
        {
            self.counts.refusal = refusal;
        }
        self.waiting += 1;
        let binds = matches!(call, Call::Bind(_)) && result.is_ok();
        if binds || self.counts_each_call() {
            self.recount();
        }
        self.counts.write(self.lent);
        result
    }

    /// Counting after every call takes time by the square of a sheet. Only a bind makes the count fall, so that the calls of a long recording can
    /// wait for the next one, or for the last call, unless the number may have passed the most.
    fn counts_each_call(&self) -> bool {
        let tables = [Part::Uses, Part::Refs, Part::Events, Part::Relocations];
        let entries: usize = tables.iter().map(|table| self.counts.of(*table)).sum();
        entries <= FEW || self.counts.open.saturating_add(self.waiting) > MOST_OPEN
    }

    /// Counts afresh what is open, and changes the number by as much.
    fn recount(&mut self) {
        let after = self.counts.counted(self.lent);
        self.counts.open = changed(self.counts.open, self.counted, after);
        self.counted = after;
        self.waiting = 0;
    }

    /// After the last call.
    pub fn end(mut self) {
        if self.waiting > 0 {
            self.recount();
            self.counts.write(self.lent);
        }
    }

    fn answer(&mut self, call: &Call<'_>) -> Result<u32, Refusal> {
        match *call {
            Call::Bytes(bytes) => self.append(bytes).map(|()| 0),
            Call::NewLabel => self.new_label(),
            Call::Bind(label) => self.bind(label).map(|()| 0),
            Call::Align { multiple, most } => self.align(multiple, most).map(|()| 0),
            Call::Use {
                offset,
                label,
                code,
            } => self.use_label(offset, label, code),
            Call::Ref { .. } | Call::Jump { .. } if self.counts.arch != X64 => Ok(0),
            Call::Ref {
                offset,
                label,
                code,
                addend,
            } => self.label_ref(offset, label, code, addend),
            Call::Jump {
                start,
                length,
                label,
                condition,
            } => self.jump(start, length, label, condition),
            Call::Constant(bytes) => self.constant(bytes),
            Call::ConstantLabel(constant) => self.constant_label(constant),
            Call::Relocation {
                offset,
                kind,
                target,
                addend,
            } => self.relocation(offset, kind, target, addend),
        }
    }

    fn is_full(&self, table: Part) -> bool {
        self.counts.of(table) >= self.lent.room(table)
    }

    /// Extends a table by an entry and gives its number; 11 if it is full.
    fn push(&mut self, table: Part, words: &[u32]) -> Result<u32, Refusal> {
        if self.is_full(table) {
            return Err(11);
        }
        let entry = self.counts.of(table);
        self.lent.set_words(table, entry, words);
        self.counts.set(table, entry + 1);
        Ok(entry as u32)
    }

    fn code_fits(&self, bytes: usize) -> Result<(), Refusal> {
        let end = self.counts.of(Part::Code) + bytes;
        if end > self.lent.room(Part::Code) {
            return Err(12);
        }
        Ok(())
    }

    fn append(&mut self, bytes: &[u8]) -> Result<(), Refusal> {
        self.code_fits(bytes.len())?;
        let offset = self.counts.of(Part::Code);
        self.lent[Part::Code][offset..][..bytes.len()].copy_from_slice(bytes);
        self.counts.set(Part::Code, offset + bytes.len());
        Ok(())
    }

    fn new_label(&mut self) -> Result<u32, Refusal> {
        self.push(Part::Labels, &[NONE])
    }

    fn knows_label(&self, label: u32) -> Result<(), Refusal> {
        if label as usize >= self.counts.of(Part::Labels) {
            return Err(8);
        }
        Ok(())
    }

    fn bind(&mut self, label: u32) -> Result<(), Refusal> {
        self.knows_label(label)?;
        if self.lent.word(Part::Labels, label as usize, 0) != NONE {
            return Err(9);
        }
        let offset = self.counts.of(Part::Code) as u32;
        self.lent.set_word(Part::Labels, label as usize, 0, offset);
        Ok(())
    }

    fn align(&mut self, multiple: u32, most: u32) -> Result<(), Refusal> {
        if !is_alignment(multiple) {
            return Err(5);
        }
        let arch = self.counts.arch;
        let is_event = arch == X64;
        if is_event && self.is_full(Part::Events) {
            return Err(11);
        }
        let offset = self.counts.of(Part::Code) as u32;
        let length = ceilings::spent(offset, multiple, most);
        self.code_fits(length as usize)?;
        if is_event {
            self.push(Part::Events, &[ALIGNMENT, offset, length, multiple, most])?;
        }
        self.append(&padding_bytes(arch, length))
    }

    fn use_label(&mut self, offset: u32, label: u32, code: u32) -> Result<u32, Refusal> {
        if code == fields::LDR12 {
            return Err(6);
        }
        if !fields::is_known(code, self.counts.arch) {
            return Err(7);
        }
        self.knows_label(label)?;
        self.push(Part::Uses, &[offset, label, code])
    }

    fn label_ref(
        &mut self,
        offset: u32,
        label: u32,
        code: u32,
        addend: i32,
    ) -> Result<u32, Refusal> {
        if !fields::is_known(code, self.counts.arch) {
            return Err(7);
        }
        self.knows_label(label)?;
        self.push(Part::Refs, &[offset, label, code, addend.cast_unsigned()])
    }

    fn jump(
        &mut self,
        start: u32,
        length: u32,
        label: u32,
        condition: u32,
    ) -> Result<u32, Refusal> {
        self.knows_label(label)?;
        let end = u64::from(start) + u64::from(length);
        if end != self.counts.of(Part::Code) as u64
            || !(2..=15).contains(&length)
            || condition > 16
            || u64::from(start) < self.last_event_end()
            || self.label_stands_within(start, end)
        {
            return Err(10);
        }
        self.push(Part::Events, &[JUMP, start, length, label, condition])
    }

    fn last_event_end(&self) -> u64 {
        let Some(last) = self.counts.of(Part::Events).checked_sub(1) else {
            return 0;
        };
        let [_, start, length] = self.lent.words(Part::Events, last);
        u64::from(start) + u64::from(length)
    }

    fn label_stands_within(&self, start: u32, end: u64) -> bool {
        (0..self.counts.of(Part::Labels)).any(|label| {
            let offset = self.lent.word(Part::Labels, label, 0);
            offset > start && u64::from(offset) < end
        })
    }

    fn constant(&mut self, bytes: &[u8]) -> Result<u32, Refusal> {
        if bytes.len() > MOST_CONSTANT {
            return Err(10);
        }
        let constant = self.push(Part::Constants, &[bytes.len() as u32, NONE])?;
        let at = constant as usize * Part::Constants.entry_bytes() + 8;
        self.lent[Part::Constants][at..][..bytes.len()].copy_from_slice(bytes);
        Ok(constant)
    }

    fn constant_label(&mut self, constant: u32) -> Result<u32, Refusal> {
        if constant as usize >= self.counts.of(Part::Constants) {
            return Err(8);
        }
        let held = self.lent.word(Part::Constants, constant as usize, 1);
        if held != NONE {
            return Ok(held);
        }
        if self.is_full(Part::Labels) || self.is_full(Part::Asked) {
            return Err(11);
        }
        let label = self.new_label()?;
        self.push(Part::Asked, &[constant])?;
        self.lent
            .set_word(Part::Constants, constant as usize, 1, label);
        Ok(label)
    }

    fn relocation(
        &mut self,
        offset: u32,
        kind: u32,
        target: u32,
        addend: i64,
    ) -> Result<u32, Refusal> {
        if !is_known_reloc(kind, self.counts.arch) {
            return Err(7);
        }
        if !is_known_target(&self.counts, target) {
            return Err(8);
        }
        if !is_reloc_offset(offset) {
            return Err(10);
        }
        let addend = addend.cast_unsigned();
        let words = [
            offset,
            kind,
            target,
            0,
            addend as u32,
            (addend >> 32) as u32,
        ];
        self.push(Part::Relocations, &words)
    }
}

/// A power of two, at most 4,096.
pub fn is_alignment(multiple: u32) -> bool {
    multiple.is_power_of_two() && multiple <= MOST_ALIGNMENT
}

/// "x86 pads with NOPs, AArch64 with zeros."
pub fn padding_bytes(arch: u32, length: u32) -> Vec<u8> {
    if arch == AARCH64 {
        vec![0; length as usize]
    } else {
        nops(length)
    }
}

/// 9-byte forms while 9 or more bytes remain, then the remainder.
pub fn nops(length: u32) -> Vec<u8> {
    const FORMS: [&[u8]; 9] = [
        &[0x90],
        &[0x66, 0x90],
        &[0x0F, 0x1F, 0x00],
        &[0x0F, 0x1F, 0x40, 0],
        &[0x0F, 0x1F, 0x44, 0, 0],
        &[0x66, 0x0F, 0x1F, 0x44, 0, 0],
        &[0x0F, 0x1F, 0x80, 0, 0, 0, 0],
        &[0x0F, 0x1F, 0x84, 0, 0, 0, 0, 0],
        &[0x66, 0x0F, 0x1F, 0x84, 0, 0, 0, 0, 0],
    ];
    let length = length as usize;
    let mut nops = FORMS[8].repeat(length / 9);
    if let Some(rest) = (length % 9).checked_sub(1) {
        nops.extend_from_slice(FORMS[rest]);
    }
    nops
}

/// `Reloc` kinds of an architecture.
pub fn is_known_reloc(kind: u32, arch: u32) -> bool {
    match kind {
        0 | 1 => true,
        2..=6 | 9 | 10 => arch != AARCH64,
        8 | 11..=21 => arch == AARCH64,
        _ => false,
    }
}

/// A symbol below the count given at start, or a label that was made.
pub fn is_known_target(counts: &Counts, target: u32) -> bool {
    match target.checked_sub(LABEL_TARGET) {
        Some(label) => (label as usize) < counts.of(Part::Labels),
        None => target < counts.symbols,
    }
}

pub fn is_reloc_offset(offset: u32) -> bool {
    (offset as usize) < MOST_CODE
}
