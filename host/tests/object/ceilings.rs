//! Alignments with ceilings beside GNU's assembler, whose `.p2align POWER,,MOST` spends all that is needed if that is at most MOST, and nothing else.

use std::fmt::Write;
use std::ops::Range;

use wargnifla::{Arch, CodeBuffer, DEFAULT_MOST};

use crate::binutils::{Folder, are_at_hand};
use crate::random::Random;
use crate::reader::Object;

const RECORDINGS: usize = 600;

/// A recording, and the same for the assembler: a section of its code, and one of the offsets of its labels and of its end.
struct Drawn {
    number: usize,
    buffer: CodeBuffer,
    text: String,
    labels: u32,
    /// Where bytes stand that are no padding.
    plain: Vec<Range<usize>>,
    /// How many alignments spent something, and how many were skipped.
    spent: u32,
    skipped: u32,
}

impl Drawn {
    /// Bytes, labels and alignments in any order, without a jump.
    fn new(number: usize, random: &mut Random) -> Self {
        let mut drawn = Self {
            number,
            buffer: CodeBuffer::new(Arch::X64),
            text: format!(".section code{number}, \"ax\", @progbits\nstart{number}:\n"),
            labels: 0,
            plain: Vec::new(),
            spent: 0,
            skipped: 0,
        };
        for _ in 0..5 + random.below(40) {
            match random.below(4) {
                0 | 1 => drawn.bytes(random),
                2 => drawn.label(),
                _ => drawn.align(random),
            }
        }
        drawn.label();
        let _ = writeln!(drawn.text, ".section offsets{number}, \"\", @progbits");
        for label in 0..drawn.labels {
            let _ = writeln!(drawn.text, ".long label{number}_{label} - start{number}");
        }
        drawn
    }

    fn bytes(&mut self, random: &mut Random) {
        let bytes: Vec<u8> = (0..1 + random.below(20))
            .map(|_| random.below(256) as u8)
            .collect();
        let start = self.buffer.data().len();
        self.plain.push(start..start + bytes.len());
        self.buffer.put_bytes(&bytes).unwrap();
        for byte in bytes {
            let _ = writeln!(self.text, ".byte {byte}");
        }
    }

    fn label(&mut self) {
        let _ = writeln!(self.text, "label{}_{}:", self.number, self.labels);
        let label = self.buffer.get_label().unwrap();
        self.buffer.try_bind_label(label).unwrap();
        self.labels += 1;
    }

    /// The assembler takes a MOST of 0 for none, so that none is drawn.
    fn align(&mut self, random: &mut Random) {
        let powers = if random.below(10) == 0 { 13 } else { 7 };
        let power = random.below(powers);
        let multiple = 1 << power;
        let most = match random.below(8) {
            0 => DEFAULT_MOST,
            1 => multiple + random.below(2),
            _ => 1 + random.below(multiple),
        };
        let offset = self.buffer.cur_offset();
        self.buffer.try_align_to_within(multiple, most).unwrap();
        let end = self.buffer.cur_offset();
        self.spent += u32::from(end > offset);
        self.skipped += u32::from(!end.is_multiple_of(multiple));
        let _ = writeln!(self.text, ".p2align {power},,{most}");
    }

    /// What the assembler made of it is what the library does.
    fn compare(mut self, object: &Object) {
        let Self { number, .. } = self;
        let finished = self.buffer.finish().unwrap();
        let offsets = &object.section(&format!("offsets{number}")).bytes;
        let (offsets, _) = offsets.as_chunks::<4>();
        let offsets: Vec<u32> = offsets.iter().map(|at| u32::from_le_bytes(*at)).collect();
        assert_eq!(finished.label_offsets(), offsets, "{}", self.text);
        let code = &object.section(&format!("code{number}")).bytes;
        assert_eq!(finished.data().len(), code.len(), "{}", self.text);
        for plain in self.plain {
            assert_eq!(finished.data()[plain.clone()], code[plain], "{}", self.text);
        }
    }
}

#[test]
fn the_assembler_spends_and_skips_the_same() {
    if !are_at_hand(&["as"], "alignments with ceilings beside GNU's assembler") {
        return;
    }
    let mut random = Random(7);
    let drawn: Vec<_> = (0..RECORDINGS)
        .map(|number| Drawn::new(number, &mut random))
        .collect();
    let folder = Folder::new("ceilings");
    let texts: Vec<_> = drawn.iter().map(|drawn| drawn.text.as_str()).collect();
    folder.write("rules.s", texts.concat());
    folder.printed("as --64 -o rules.o rules.s");
    let object = Object::read(&folder.read("rules.o"));
    let spent: u32 = drawn.iter().map(|drawn| drawn.spent).sum();
    let skipped: u32 = drawn.iter().map(|drawn| drawn.skipped).sum();
    assert!(
        spent > 500 && skipped > 500,
        "{spent} spent, {skipped} skipped"
    );
    for drawn in drawn {
        drawn.compare(&object);
    }
}
