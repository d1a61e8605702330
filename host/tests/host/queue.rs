//! Random calls by the wrapper's methods, which queue what is certain to be accepted, beside the same calls handed to the library one by one: every
//! answer, everything that can be asked for, and every finish is to be the same.

use std::collections::BTreeSet;

use wargnifla::{
    Arch, Call, CodeBuffer, Condition, Constant, Error, Extent, FinishedRecording, Label, LabelUse,
    MOST_CODE, MOST_ENTRIES, RelaxableJump, Reloc, RelocTarget, UNBOUND, write_sheet,
};

use crate::random::Random;

/// `WARGNIFLA_RECORDINGS` says another number.
const RECORDINGS: u64 = 3_000;

/// Of so many recordings one is near a limit.
const NEAR_LIMIT: u64 = 150;

const SYMBOLS: u32 = 3;

/// A recording by methods, and the same by sheets of one call.
struct Pair {
    queued: CodeBuffer,
    single: CodeBuffer,
    random: Random,
    /// How many of a hundred arguments are wrong: a refusal that is recorded ends all, so some recordings have none.
    slips: u32,
    /// The numbers that calls and finishes were refused by.
    refused: BTreeSet<u32>,
}

impl Pair {
    fn new(arch: Arch, seed: u64) -> Self {
        Self {
            queued: CodeBuffer::with_symbols(arch, SYMBOLS),
            single: CodeBuffer::with_symbols(arch, SYMBOLS),
            random: Random(seed.wrapping_mul(0x9E37_79B9_7F4A_7C15) | 1),
            slips: [0, 1, 5][seed as usize / 3 % 3],
            refused: BTreeSet::new(),
        }
    }

    fn slips(&mut self) -> bool {
        self.chance(self.slips)
    }

    fn chance(&mut self, percent: u32) -> bool {
        self.random.below(100) < percent
    }

    /// Makes a call on both.
    fn make(&mut self, call: &Call) {
        let by_method = self.chance(80);
        let queued = if by_method {
            by_method_of(&mut self.queued, call)
        } else {
            self.queued.call(call).map(|()| None)
        };
        let single = by_sheet(&mut self.single, call);
        if let Err(error) = &single {
            self.refused.insert(error.number());
        }
        if let Ok(Some(number)) = queued {
            assert_eq!(number, self.number_of(call), "{call:?}");
        }
        assert_eq!(answer(queued), answer(single), "{call:?}");
    }

    /// A sheet amid calls, which makes a label and may bind one.
    fn run_sheet(&mut self) {
        let labels = self.single.label_count();
        let calls = [Call::NewLabel, Call::Bind(self.random.below(labels + 1))];
        let count = 1 + self.random.below(2) as usize;
        let sheet = write_sheet(&calls[..count]).unwrap();
        let answers = [&mut self.queued, &mut self.single].map(|buffer| buffer.run_sheet(&sheet));
        let [queued, single] = answers.map(|answer| answer.map_err(|error| plain(&error)));
        assert_eq!(queued, single);
    }

    /// An alignment that may spend nothing, which no sheet can say.
    fn align_within_none(&mut self) {
        let offset = self.single.cur_offset();
        let answers = [&mut self.queued, &mut self.single]
            .map(|buffer| answer(buffer.try_align_to_within(16, 0).map(|()| None)));
        assert_eq!(answers[0], answers[1]);
        assert_eq!(self.queued.cur_offset(), offset);
    }

    /// Clones a buffer. One of the two goes its own way, which the other one is not to see.
    fn clone_one(&mut self) {
        let mut other = self.queued.clone();
        if self.chance(50) {
            std::mem::swap(&mut self.queued, &mut other);
        }
        let label = other.get_label();
        let _ = other.put_bytes(&[0xCC; 7]);
        if let Ok(label) = label {
            let _ = other.try_bind_label(label);
            other.name_label(label, "other");
        }
        let _ = other.finish();
    }

    /// A jump with its bytes, beside the calls that it is made of. Where one of these is refused, the other buffer is to be refused as a whole, too.
    fn put_jump(&mut self) {
        let labels = self.single.label_count();
        let id = self.random.below(labels.max(1)) + u32::from(self.slips());
        let (label, cc) = (
            Label::from_id(id),
            Condition::from_number(self.random.below(17)),
        );
        let put = self.queued.put_jump(label, cc);
        let made = self.jump_by_calls(id, cc);
        let number = |answer: &Result<(), Error>| answer.as_ref().err().map(Error::number);
        assert_eq!(number(&put), number(&made));
        if made.is_err() {
            self.refused.extend(number(&made));
            let single = self.single.put_jump(label, cc);
            assert_eq!(answer(put.map(|()| None)), answer(single.map(|()| None)));
        }
    }

    /// The calls that a jump is made of, on the other buffer: none, if one of them is refused.
    fn jump_by_calls(&mut self, label: u32, cc: Option<Condition>) -> Result<(), Error> {
        let start = self.single.cur_offset();
        let opcode = cc.map_or(vec![0xE9], |cc| vec![0x0F, 0x80 + cc.number() as u8]);
        let bytes = [&opcode[..], &[0; 4]].concat();
        let fill = match self.single.arch() {
            Arch::X64 => Call::Jump {
                start,
                length: bytes.len() as u32,
                label,
                condition: cc.map_or(Condition::NONE, Condition::number),
            },
            _ => Call::Use {
                offset: start + opcode.len() as u32,
                label,
                code: LabelUse::X86JmpRel32.code(),
            },
        };
        let mut made = self.single.clone();
        made.put_bytes(&bytes)?;
        made.call(&fill)?;
        self.single = made;
        Ok(())
    }

    /// The label or constant that an accepted call gave.
    fn number_of(&self, call: &Call) -> u32 {
        match call {
            Call::NewLabel => self.single.label_count() - 1,
            Call::Constant(_) => self.single.recording().constants.len() as u32 - 1,
            Call::ConstantLabel(constant) => {
                let constants = self.single.recording().constants;
                constants[*constant as usize].label.unwrap().id()
            }
            other => panic!("{other:?} gives no number"),
        }
    }

    /// Asks both for something.
    fn ask(&mut self) {
        let label = Label::from_id(self.random.below(self.single.label_count() + 2));
        let (queued, single) = (&self.queued, &self.single);
        match self.random.below(10) {
            0 => assert_eq!(queued.data(), single.data()),
            1 => assert_eq!(queued.open(), single.open()),
            2 => assert_eq!(queued.relocs(), single.relocs()),
            3 => assert_eq!(queued.label_offset(label), single.label_offset(label)),
            4 => assert_eq!(queued.is_bound(label), single.is_bound(label)),
            5 => assert_eq!(queued.cur_offset(), single.cur_offset()),
            6 => assert_eq!(queued.label_count(), single.label_count()),
            7 => assert_eq!(queued.is_finished(), single.is_finished()),
            8 => assert_eq!(queued.recording(), single.recording()),
            _ => {
                let label = Label::from_id(self.random.below(4));
                self.queued.name_label(label, "name");
                self.single.name_label(label, "name");
            }
        }
    }

    fn ask_all(&self) {
        let (queued, single) = (&self.queued, &self.single);
        assert_eq!(queued.cur_offset(), single.cur_offset());
        for label in (0..single.label_count() + 1).map(Label::from_id) {
            assert_eq!(queued.label_offset(label), single.label_offset(label));
        }
        assert_eq!(queued.recording(), single.recording());
        assert!(queued.data() == single.data());
        let error = |buffer: &CodeBuffer| buffer.error().map(plain);
        assert_eq!(error(queued), error(single));
    }

    fn finish(&mut self) {
        let single = self.single.finish();
        if let Err(error) = &single {
            self.refused.insert(error.number());
        }
        let queued = self.queued.finish_with_recording();
        if let Ok(finished) = &queued {
            is_shown(finished);
        }
        let queued = queued.map(FinishedRecording::into_code);
        assert!(queued.as_ref().ok() == single.as_ref().ok());
        assert_eq!(
            queued.err().map(|e| plain(&e)),
            single.err().map(|e| plain(&e))
        );
    }

    /// A call that fits, or nearly so.
    fn call(&mut self) -> Call {
        let labels = self.single.label_count();
        if labels == 0 && self.slips < 5 {
            return Call::NewLabel;
        }
        let label = if self.slips() {
            [labels, u32::MAX][self.random.below(2) as usize]
        } else {
            self.random.below(labels.max(1))
        };
        match self.random.below(20) {
            0..4 => self.bytes(),
            4..6 => Call::NewLabel,
            6..8 => Call::Bind(label),
            8..10 => self.align(),
            10..12 => Call::Use {
                offset: self.field(),
                label,
                code: self.code(),
            },
            12..14 => Call::Ref {
                offset: self.field(),
                label,
                code: self.code(),
                addend: self.random.below(9).cast_signed() - 4,
            },
            14..17 => self.jump(label),
            17 => self.constant(),
            18 => self.constant_label(),
            _ => self.relocation(label),
        }
    }

    /// Up to one of some numbers of bytes, mostly the first.
    fn some_bytes(&mut self, most: [u32; 4]) -> Vec<u8> {
        let which = (self.random.below(14) as usize).saturating_sub(10);
        let count = self.random.below(most[which] + 1);
        (0..count).map(|_| self.random.below(256) as u8).collect()
    }

    fn bytes(&mut self) -> Call {
        Call::Bytes(self.some_bytes([12, 25, 98, 300]).into())
    }

    fn constant(&mut self) -> Call {
        let most = if self.slips() { 65 } else { 64 };
        Call::Constant(self.some_bytes([4, 12, 13, most]).into())
    }

    fn constant_label(&mut self) -> Call {
        let known = self.single.recording().constants.len() as u32;
        if known == 0 && !self.slips() {
            return self.constant();
        }
        let below = known + u32::from(self.slips());
        Call::ConstantLabel(self.random.below(below.max(1)))
    }

    /// Where a field starts: often at bytes of its own.
    fn field(&mut self) -> u32 {
        if self.chance(70) {
            self.make(&Call::Bytes([0; 4].as_slice().into()));
            return self.single.cur_offset().saturating_sub(4);
        }
        self.random.below(self.single.cur_offset() + 4)
    }

    fn align(&mut self) -> Call {
        let multiple = match self.random.below(50) {
            0 => 3,
            1 => 8_192,
            2 => 0,
            3 => 4_096,
            _ => 1 << self.random.below(6),
        };
        let most = [0, 0, 1, 7, 4_095, u32::MAX][self.random.below(6) as usize];
        Call::Align { multiple, most }
    }

    fn code(&mut self) -> u32 {
        if self.slips() {
            return self.random.below(19);
        }
        match self.single.arch() {
            Arch::AArch64 => [9, 10, 11, 12, 13, 14, 16][self.random.below(7) as usize],
            _ => self.random.below(2),
        }
    }

    /// A jump over the last bytes, mostly behind bytes of its own.
    fn jump(&mut self, label: u32) -> Call {
        let length = if self.slips() {
            [1, 16][self.random.below(2) as usize]
        } else {
            2 + self.random.below(5)
        };
        if !self.slips() {
            self.jump_bytes(length);
        }
        let start = self.single.cur_offset().wrapping_sub(length);
        Call::Jump {
            start: start.wrapping_sub(u32::from(self.slips())),
            length,
            label,
            condition: self.random.below(17) + u32::from(self.slips()),
        }
    }

    /// The bytes of a jump, with labels at their end and, by a slip, inside.
    fn jump_bytes(&mut self, length: u32) {
        let inside = match self.slips() {
            true => self.random.below(length),
            false => 0,
        };
        self.make(&Call::Bytes(vec![0; inside as usize].into()));
        if inside > 0 {
            self.bind_new();
        }
        self.make(&Call::Bytes(vec![0; (length - inside) as usize].into()));
        if self.chance(20) {
            self.bind_new();
        }
    }

    fn bind_new(&mut self) {
        self.make(&Call::NewLabel);
        self.make(&Call::Bind(self.single.label_count().wrapping_sub(1)));
    }

    fn relocation(&mut self, label: u32) -> Call {
        let target = match self.random.below(3) {
            0 => self.random.below(SYMBOLS) + u32::from(self.slips()),
            _ => label | 1 << 31,
        };
        let kind = match self.single.arch() {
            _ if self.slips() => self.random.below(30),
            Arch::AArch64 => [0, 1, 8, 11, 19, 21][self.random.below(6) as usize],
            _ => [0, 1, 2, 4, 6, 9, 10][self.random.below(7) as usize],
        };
        let offset = match self.random.below(10) {
            0 => 16_777_215 + u32::from(self.slips()),
            _ if self.slips() => 16_777_216,
            _ => self.random.below(100),
        };
        let addend = [0, -4, i64::from(i32::MAX), 1 << 31, i64::MIN];
        Call::Relocation {
            offset,
            kind,
            target,
            addend: addend[self.random.below(5) as usize],
        }
    }

    /// Fills a table, or the code, but for a few entries.
    fn fill(&mut self) {
        let left = self.random.below(6) as usize;
        let many = |call: Call| vec![call; MOST_ENTRIES - left];
        let zero_use = Call::Use {
            offset: 0,
            label: 0,
            code: if self.single.arch() == Arch::AArch64 {
                9
            } else {
                0
            },
        };
        let calls = match self.random.below(7) {
            0 => vec![Call::Bytes(vec![0x90; MOST_CODE - left].into())],
            1 => many(Call::NewLabel),
            2 => many(Call::align(1)),
            3 => [vec![Call::NewLabel], many(zero_use)].concat(),
            4 => {
                let zero_ref = Call::Ref {
                    offset: 0,
                    label: 0,
                    code: 0,
                    addend: 0,
                };
                [vec![Call::NewLabel], many(zero_ref)].concat()
            }
            5 => many(Call::Constant([1].as_slice().into())),
            _ => many(Call::Relocation {
                offset: 0,
                kind: 0,
                target: 0,
                addend: 0,
            }),
        };
        if let [bytes] = &calls[..] {
            self.queued.call(bytes).unwrap();
            self.single.call(bytes).unwrap();
            return;
        }
        for call in &calls {
            self.queued.call(call).unwrap();
        }
        self.single
            .run_sheet(&write_sheet(&calls).unwrap())
            .unwrap();
    }
}

/// Makes a call by its own method, if it has one for these numbers. Gives the label or constant that the method gives.
fn by_method_of(buffer: &mut CodeBuffer, call: &Call) -> Result<Option<u32>, Error> {
    let nothing = |()| None;
    match *call {
        Call::Bytes(ref bytes) => match bytes[..] {
            [byte] => buffer.put1(byte),
            [a, b] => buffer.put2(u16::from_le_bytes([a, b])),
            _ => buffer.put_bytes(bytes),
        }
        .map(nothing),
        Call::NewLabel => buffer.get_label().map(|label| Some(label.id())),
        Call::Bind(label) => buffer.try_bind_label(Label::from_id(label)).map(nothing),
        Call::Align { multiple, most: 0 } => buffer.try_align_to(multiple).map(nothing),
        Call::Align { multiple, most } => buffer.try_align_to_within(multiple, most).map(nothing),
        Call::Use {
            offset,
            label,
            code,
        } => match LabelUse::from_code(code) {
            Some(kind) => buffer
                .use_label_at_offset(offset, Label::from_id(label), kind)
                .map(nothing),
            None => buffer.call(call).map(nothing),
        },
        Call::Ref {
            offset,
            label,
            code,
            addend,
        } => match LabelUse::from_code(code) {
            Some(kind) => buffer
                .record_label_ref(offset, Label::from_id(label), kind, addend)
                .map(nothing),
            None => buffer.call(call).map(nothing),
        },
        Call::Jump {
            start,
            length,
            label,
            condition,
        } if condition <= Condition::NONE => buffer
            .record_relaxable_jump(RelaxableJump {
                start,
                len: length as u8,
                label: Label::from_id(label),
                cc: Condition::from_number(condition),
            })
            .map(nothing),
        Call::Constant(ref bytes) => buffer.add_constant(bytes).map(|number| Some(number.id())),
        Call::ConstantLabel(constant) => buffer
            .get_label_for_constant(Constant::from_id(constant))
            .map(|label| Some(label.id())),
        Call::Relocation {
            offset,
            kind,
            target,
            addend,
        } => match Reloc::from_number(kind) {
            Some(kind) => buffer
                .add_reloc_at_offset(offset, kind, RelocTarget::from_word(target), addend)
                .map(nothing),
            None => buffer.call(call).map(nothing),
        },
        _ => buffer.call(call).map(nothing),
    }
}

/// Makes a call by a sheet of it alone, which is never queued. What no sheet carries is not queued either. Long bytes are made by parts, unless they
/// are to be refused as a whole.
fn by_sheet(buffer: &mut CodeBuffer, call: &Call) -> Result<Option<u32>, Error> {
    if let Call::Bytes(bytes) = call
        && bytes.len() > 12
    {
        let room = MOST_CODE - buffer.data().len();
        if bytes.len() > room || buffer.error().is_some() || buffer.is_finished() {
            return buffer.call(call).map(|()| None);
        }
        for part in bytes.chunks(12) {
            by_sheet(buffer, &Call::Bytes(part.into()))?;
        }
        return Ok(None);
    }
    match write_sheet(std::slice::from_ref(call)) {
        Ok(sheet) => buffer.run_sheet(&sheet).map(|()| None),
        Err(_) => buffer.call(call).map(|()| None),
    }
}

/// Whatever was recorded can be shown, and its rounds are those that finish reports.
fn is_shown(finished: &FinishedRecording) {
    finished.rounds().check(finished.code()).unwrap();
    if finished.recorded().len() > 100_000 {
        return;
    }
    let listing = finished.listing(Extent::Full);
    let labels = finished.code().label_offsets().iter();
    let bound = labels.filter(|offset| **offset != UNBOUND).count();
    let rows = listing.lines().filter(|line| line.contains("  label "));
    assert!(rows.count() >= bound, "{listing}");
}

fn answer(result: Result<Option<u32>, Error>) -> Result<(), String> {
    result.map(|_| ()).map_err(|error| plain(&error))
}

/// An error without the index that a call has in its sheet.
fn plain(error: &Error) -> String {
    let text = error.to_string();
    text.replace("call 0 (", "").replace("):", ":")
}

/// A recording of up to a few hundred calls, with finishes amid and after them. Gives the numbers that were refused.
fn compare(seed: u64) -> BTreeSet<u32> {
    let arch = Arch::ALL[seed as usize % 3];
    let mut pair = Pair::new(arch, seed + 1);
    let is_long = pair.chance(4);
    let count = if is_long { 900 } else { 60 };
    let asking = [0, 2, 30][pair.random.below(3) as usize];
    if seed % NEAR_LIMIT == NEAR_LIMIT - 1 {
        pair.fill();
    }
    for _ in 0..pair.random.below(count) {
        let call = pair.call();
        pair.make(&call);
        if pair.chance(3) {
            pair.align_within_none();
        }
        if pair.chance(3) {
            pair.run_sheet();
        }
        if pair.chance(asking) {
            pair.ask();
        }
        if pair.chance(2) {
            pair.clone_one();
        }
        if arch != Arch::AArch64 && pair.chance(2) {
            pair.put_jump();
        }
        if pair.chance(1) && pair.chance(20) {
            pair.finish();
        }
    }
    if pair.chance(50) {
        pair.ask_all();
    }
    pair.finish();
    pair.ask_all();
    let call = pair.call();
    pair.make(&call);
    pair.refused
}

#[test]
fn queued_calls_answer_as_single_ones() {
    let recordings = std::env::var("WARGNIFLA_RECORDINGS");
    let recordings = recordings.map_or(RECORDINGS, |count| count.parse().unwrap());
    let mut refused = BTreeSet::new();
    for seed in 0..recordings {
        refused.append(&mut compare(seed));
    }
    let expected = [1].into_iter().chain(4..=22);
    let expected = expected.filter(|number| ![14, 16].contains(number));
    let missing: Vec<u32> = expected.filter(|n| !refused.contains(n)).collect();
    assert_eq!(missing, [], "numbers that nothing was refused by");
}

/// Bytes that fit the code, and one more than fit, by one call of a sheet and by several.
#[test]
fn the_code_ends_where_it_ends_for_single_calls() {
    for (left, more) in [(0, 0), (0, 1), (5, 5), (5, 6), (12, 13), (96, 96), (96, 97)] {
        let mut pair = Pair::new(Arch::X64, 1);
        let most = Call::Bytes(vec![0; MOST_CODE - left].into());
        pair.queued.call(&most).unwrap();
        pair.single.call(&most).unwrap();
        pair.make(&Call::Bytes(vec![1; more].into()));
        assert_eq!(pair.refused.contains(&12), more > left);
        pair.make(&Call::align(4_096));
        pair.ask_all();
    }
}
