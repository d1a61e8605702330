//! A small assembler of its own, which can be given a mistake. Without one it writes what finish does.

use std::collections::HashMap;

use wargnifla::{
    Arch, CodeBuffer, CodeBufferFinalized, CodeOffset, LayoutEvent, Pooled, Recording,
    RelaxableJump, Segment, UNBOUND,
};

use super::Mistake;

/// Code, and where its events and labels stand.
#[derive(Debug, PartialEq, Eq)]
pub struct Assembly {
    pub code: Vec<u8>,
    pub segments: Vec<Segment>,
    pub labels: Vec<CodeOffset>,
}

impl Assembly {
    /// What finish has made.
    pub fn finished(finished: &CodeBufferFinalized) -> Self {
        Self {
            code: finished.data().to_vec(),
            segments: finished.segments().to_vec(),
            labels: finished.label_offsets().to_vec(),
        }
    }

    /// The bytes of an event.
    pub fn bytes(&self, event: usize) -> &[u8] {
        let Segment {
            new_start, new_end, ..
        } = self.segments[event];
        &self.code[new_start as usize..new_end as usize]
    }

    /// Where the processor goes from a jump: its end and the displacement that stands there.
    pub fn landing(&self, jump: usize) -> i64 {
        let displacement = match *self.bytes(jump) {
            [_, short] => short.cast_signed().into(),
            [.., a, b, c, d] => i64::from(i32::from_le_bytes([a, b, c, d])),
            _ => unreachable!("a jump has 2, 5 or 6 bytes"),
        };
        i64::from(self.segments[jump].new_end) + displacement
    }
}

/// A recorded offset, and the event that decides where it goes: the last that starts at it or before.
struct Place {
    recorded: CodeOffset,
    decided_by: Option<usize>,
}

impl Place {
    fn new(pooled: &Pooled, recorded: CodeOffset) -> Self {
        let starts_by = |event: &LayoutEvent| event.start() <= recorded;
        Self {
            recorded,
            decided_by: pooled.events.partition_point(starts_by).checked_sub(1),
        }
    }

    /// The offset in a layout; that of an unbound label stays.
    fn offset(&self, segments: &[Segment]) -> CodeOffset {
        let Some(event) = self.decided_by.filter(|_| self.recorded != UNBOUND) else {
            return self.recorded;
        };
        let segment = segments[event];
        match self.recorded.checked_sub(segment.old_end) {
            Some(past) => segment.new_end + past,
            None => segment.new_start + (self.recorded - segment.old_start),
        }
    }
}

pub struct Model<'a> {
    recording: &'a Recording,
    pooled: &'a Pooled,
    /// The recorded code, with zeros for the pool.
    recorded: Vec<u8>,
    /// Where each label was recorded.
    labels: Vec<Place>,
    mistake: Option<Mistake>,
}

impl<'a> Model<'a> {
    pub fn new(
        recording: &'a Recording,
        pooled: &'a Pooled,
        recorded: &[u8],
        mistake: Option<Mistake>,
    ) -> Self {
        let mut recorded = recorded.to_vec();
        recorded.resize(pooled.len as usize, 0);
        let labels = pooled.labels.iter();
        Self {
            recording,
            pooled,
            recorded,
            labels: labels.map(|label| Place::new(pooled, *label)).collect(),
            mistake,
        }
    }

    pub fn assembled(&self) -> Assembly {
        let segments = self.settled();
        let mut code = self.copied(&segments);
        self.fill_refs(&mut code, &segments);
        self.fill_jumps(&mut code, &segments);
        self.fill_constants(&mut code, &segments);
        let labels = self.labels.iter();
        Assembly {
            labels: labels.map(|label| label.offset(&segments)).collect(),
            code,
            segments,
        }
    }

    /// The layout that the rounds settle on, or that of the second round where only the first may lengthen jumps.
    fn settled(&self) -> Vec<Segment> {
        let mut long = vec![false; self.pooled.events.len()];
        for round in 1.. {
            let segments = self.placed(&long);
            let is_last = round == 2 && self.mistake == Some(Mistake::OneRound);
            if is_last || !self.lengthened(&mut long, &segments) {
                return segments;
            }
        }
        unreachable!("each round but the last lengthens a jump")
    }

    /// Places the events in order.
    fn placed(&self, long: &[bool]) -> Vec<Segment> {
        let mut last = Segment::default();
        let place = |(event, long): (&LayoutEvent, &bool)| {
            let new_start = last.new_end + (event.start() - last.old_end);
            last = Segment {
                old_start: event.start(),
                old_end: event.end(),
                new_start,
                new_end: new_start + self.len(event, new_start, *long),
            };
            last
        };
        self.pooled.events.iter().zip(long).map(place).collect()
    }

    fn len(&self, event: &LayoutEvent, start: CodeOffset, long: bool) -> u32 {
        match self.mistake {
            Some(Mistake::OldPadding) if event.alignment().is_some() => event.recorded_len(),
            _ => event.len_at(start, long),
        }
    }

    /// Makes the short jumps long that do not reach their labels; whether there are some.
    fn lengthened(&self, long: &mut [bool], segments: &[Segment]) -> bool {
        let mut lengthens = false;
        for (number, jump) in self.jumps() {
            let reaches = i8::try_from(self.distance(jump, &segments[number], segments)).is_ok();
            if !long[number] && !reaches {
                long[number] = true;
                lengthens = true;
            }
        }
        lengthens
    }

    /// The jumps, by their numbers among the events.
    fn jumps(&self) -> impl Iterator<Item = (usize, &RelaxableJump)> {
        let events = self.pooled.events.iter().enumerate();
        events.filter_map(|(number, event)| match event {
            LayoutEvent::Jump(jump) => Some((number, jump)),
            _ => None,
        })
    }

    /// A label's offset less the jump's end, or less its start where that is the mistake.
    fn distance(&self, jump: &RelaxableJump, placed: &Segment, segments: &[Segment]) -> i64 {
        let from = match self.mistake {
            Some(Mistake::FromStart) => placed.new_start,
            _ => placed.new_end,
        };
        let target = self.labels[jump.label.id() as usize].offset(segments);
        i64::from(target) - i64::from(from)
    }

    /// The recorded bytes between the events, and each event in its form, with displacements of zeros.
    fn copied(&self, segments: &[Segment]) -> Vec<u8> {
        let mut code = Vec::new();
        let mut paddings = HashMap::new();
        let mut passed = 0;
        for (event, segment) in self.pooled.events.iter().zip(segments) {
            code.extend(&self.recorded[passed..segment.old_start as usize]);
            let len = (segment.new_end - segment.new_start) as usize;
            match event {
                LayoutEvent::Jump(jump) => code.extend(form(jump, len)),
                _ => code.extend(paddings.entry(len).or_insert_with(|| padding(len)).iter()),
            }
            passed = segment.old_end as usize;
        }
        code.extend(&self.recorded[passed..]);
        code
    }

    fn fill_refs(&self, code: &mut [u8], segments: &[Segment]) {
        for field in &self.recording.refs {
            let offset = Place::new(self.pooled, field.offset).offset(segments);
            let target = self.labels[field.label.id() as usize].offset(segments);
            let size = field.kind.patch_size();
            let from = i64::from(offset) + i64::from(size);
            let value = i64::from(target) + i64::from(field.addend) - from;
            write_lowest(code, offset, size, value);
        }
    }

    fn fill_jumps(&self, code: &mut [u8], segments: &[Segment]) {
        for (number, jump) in self.jumps() {
            let placed = &segments[number];
            let size = match placed.new_end - placed.new_start {
                RelaxableJump::SHORT_LEN => 1,
                _ => 4,
            };
            let value = self.distance(jump, placed, segments);
            write_lowest(code, placed.new_end - size, size, value);
        }
    }

    fn fill_constants(&self, code: &mut [u8], segments: &[Segment]) {
        for placed in &self.pooled.constants {
            let start = Place::new(self.pooled, placed.offset).offset(segments) as usize;
            let bytes = &self.recording.constants[placed.constant.id() as usize].data;
            code[start..start + bytes.len()].copy_from_slice(bytes);
        }
    }
}

/// Writes a value's lowest bytes: what does not fit wraps.
fn write_lowest(code: &mut [u8], offset: CodeOffset, size: u32, value: i64) {
    let (offset, size) = (offset as usize, size as usize);
    code[offset..offset + size].copy_from_slice(&value.to_le_bytes()[..size]);
}

/// A jump of so many bytes with a displacement of zeros.
fn form(jump: &RelaxableJump, len: usize) -> Vec<u8> {
    let is_short = len == RelaxableJump::SHORT_LEN as usize;
    let mut form = match jump.cc {
        None if is_short => vec![0xEB],
        None => vec![0xE9],
        Some(cc) if is_short => vec![0x70 + cc.number() as u8],
        Some(cc) => vec![0x0F, 0x80 + cc.number() as u8],
    };
    form.resize(len, 0);
    form
}

/// So many bytes of padding, less than 4,096, as the library records them.
fn padding(len: usize) -> Vec<u8> {
    const MULTIPLE: usize = 4096;
    let mut buffer = CodeBuffer::new(Arch::X64);
    let recorded = buffer
        .put_bytes(&vec![0; MULTIPLE - len])
        .and_then(|()| buffer.try_align_to(MULTIPLE as CodeOffset));
    recorded.expect("an empty buffer has room for 4,096 bytes");
    buffer.data()[MULTIPLE - len..].to_vec()
}

#[cfg(test)]
mod tests {
    use super::*;
    use wargnifla::read_text;

    /// What is written for a text with a mistake, or without one.
    fn assembled(text: &str, mistake: Option<Mistake>) -> Assembly {
        let mut buffer = recorded(text);
        let recording = buffer.recording();
        let pooled = recording.pooled();
        let model = Model::new(&recording, &pooled, buffer.data(), mistake).assembled();
        if mistake.is_none() {
            assert_eq!(
                model,
                Assembly::finished(&buffer.finish().unwrap()),
                "{text}"
            );
        }
        model
    }

    fn recorded(text: &str) -> CodeBuffer {
        let mut buffer = CodeBuffer::with_symbols(Arch::X64, 2);
        for call in &read_text(text).unwrap().calls {
            buffer.call(call).unwrap();
        }
        buffer
    }

    #[test]
    fn without_a_mistake_it_writes_what_finish_does() {
        let sheets = [
            include_str!("../../../../sheets/case-a.txt"),
            include_str!("../../../../sheets/case-b.txt"),
            include_str!("../../../../sheets/case-c.txt"),
            include_str!("../../../../sheets/case-d.txt"),
            include_str!("../../../../sheets/case-e.txt"),
            include_str!("../../../../sheets/case-f.txt"),
            include_str!("../../../../sheets/ceiling.txt"),
            include_str!("../../../../sheets/loop.txt"),
            include_str!("../../../../sheets/pooled-constant.txt"),
            include_str!("../../../../sheets/still-open.txt"),
            include_str!("../../../../sheets/wide-constant.txt"),
            // Alignments that stand on one offset, a label between them, a ref with an addend, and a label that nothing binds.
            "label; jne end; a 8; a 16 3; here: a 4; bytes 74 00; ref 23 here X86BranchRel8 -1; zeros 140; end: align 64",
        ];
        for sheet in sheets {
            assembled(sheet, None);
        }
    }

    #[test]
    fn from_start_lands_behind_the_label_by_the_jumps_length() {
        // The rule of docs/TOUR.md: the jump is at 4 and its label at 7.
        let rule = "bytes 89F085FF; jne packed; bytes C3; packed: bytes 89F8C3";
        let wrong = assembled(rule, Some(Mistake::FromStart));
        assert_eq!(wrong.bytes(0), [0x75, 3]);
        assert_eq!((wrong.landing(0), wrong.labels[0]), (9, 7));
        assert_eq!(assembled(rule, None).landing(0), 7);
        // Back to 0 from 127: -127 seems to fit. From the end at 129 it leads to 2.
        let back = "start: zeros 127; jmp start";
        let wrong = assembled(back, Some(Mistake::FromStart));
        assert_eq!((wrong.bytes(0), wrong.landing(0)), (&[0xEB, 0x81][..], 2));
        // On to 129 from 0: 129 seems not to fit. The long jump ends at 5 and its label stands at 132.
        let on = "jmp end; zeros 127; end:";
        let wrong = assembled(on, Some(Mistake::FromStart));
        assert_eq!(wrong.bytes(0), [0xE9, 132, 0, 0, 0]);
        assert_eq!((wrong.landing(0), wrong.code.len()), (137, 132));
    }

    #[test]
    fn one_round_leaves_a_short_jump_that_wraps() {
        let crossing = "jmp first; jmp second; zeros 125; first: zeros 3; second:";
        let wrong = assembled(crossing, Some(Mistake::OneRound));
        assert_eq!(
            (wrong.code.len(), &wrong.labels[..]),
            (135, &[132, 135][..])
        );
        // 132 - 2 = 130, which is 82 in one byte and reads as -126.
        assert_eq!(
            (wrong.bytes(0), wrong.landing(0)),
            (&[0xEB, 0x82][..], -124)
        );
        assert_eq!(wrong.bytes(1), [0xE9, 128, 0, 0, 0]);
        assert_eq!(wrong.landing(1), 135);
    }

    #[test]
    fn old_padding_ends_on_no_multiple() {
        let table = "jmp done; align 16; bytes 01020304; done: bytes C3";
        let wrong = assembled(table, Some(Mistake::OldPadding));
        // 11 bytes were recorded behind 5; behind 2 they end at 13. The jump goes to 17, 15 from its end.
        assert_eq!(
            (wrong.segments[1].new_start, wrong.segments[1].new_end),
            (2, 13)
        );
        assert_eq!((wrong.bytes(0), wrong.landing(0)), (&[0xEB, 15][..], 17));
        assert_eq!((wrong.labels[0], wrong.code.len()), (17, 18));
        // At 10 it needed 6 bytes, more than 2, and was skipped. At 7 it needs 1, and stays without.
        let skipped = "jmp end; zeros 5; align 8 2; zeros 1; end:";
        assert_eq!(assembled(skipped, None).code.len(), 9);
        assert_eq!(assembled(skipped, Some(Mistake::OldPadding)).code.len(), 8);
    }
}
