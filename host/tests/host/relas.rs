//! Relocations as ELF: the types, the entries written and read, and what is refused.

use wargnifla::{
    Arch, AsmReloc, CodeBuffer, CodeBufferFinalized, ElfType, Entry, Error, Label, Place, Rela,
    Reloc, RelocTarget, Sym, ffi, read_relas,
};

use crate::elf_types::elf_types;
use crate::random::Random;
use crate::recorded;

const SECTION: u32 = 7;

/// What a text finishes to on an architecture.
fn finished_on(arch: Arch, text: &str) -> CodeBufferFinalized {
    let mut buffer = recorded(arch, text).expect("an accepted recording");
    buffer.finish().expect("an accepted finish")
}

/// The entries that a text's relocations are written as, read back.
fn relas(arch: Arch, text: &str) -> Vec<Rela> {
    let bytes = finished_on(arch, text).relas(SECTION).unwrap();
    read_relas(&bytes).unwrap()
}

/// An entry's bytes, whatever they mean.
fn entry(offset: u64, elf_type: u32, symbol: u32, addend: i64) -> Vec<u8> {
    let info = u64::from(symbol) << 32 | u64::from(elf_type);
    let words = [offset, info, addend.cast_unsigned()];
    words.map(u64::to_le_bytes).concat()
}

#[test]
fn each_kind_has_its_type_or_none() {
    for arch in Arch::ALL {
        for kind in Reloc::ALL {
            let listed = elf_types(arch).iter().find(|listed| listed.0 == kind);
            let number = listed.map(|listed| listed.2);
            let of_kind = ElfType::of(arch, kind);
            assert_eq!(of_kind.map(ElfType::number), number, "{arch} {kind}");
            let name = listed.map(|listed| listed.1.to_owned());
            assert_eq!(of_kind.map(|ty| ty.to_string()), name);
            let text = format!("z 8; o 0 {kind} s0");
            let Ok(mut buffer) = recorded(arch, &text) else {
                assert_eq!(number, None, "{kind} is foreign to {arch}");
                continue;
            };
            match (buffer.finish().unwrap().relas(SECTION), number) {
                (Ok(bytes), Some(number)) => assert_eq!(bytes, entry(0, number, 0, 0)),
                (Err(error), None) => assert_eq!(error.number(), 24),
                (written, _) => panic!("{arch} {kind}: {written:?}"),
            }
        }
    }
}

#[test]
fn eleven_types_are_read_and_no_others() {
    let mut numbers: Vec<u32> = [Arch::X64, Arch::AArch64]
        .into_iter()
        .flat_map(elf_types)
        .map(|listed| listed.2)
        .collect();
    numbers.dedup();
    assert_eq!(ElfType::ALL.map(ElfType::number), numbers[..]);
    let tried = (0..2_000).chain([1 << 16 | 1, 1 << 31 | 1, u32::MAX]);
    for number in tried {
        let read = read_relas(&entry(0, number, 0, 0));
        assert_eq!(read.is_ok(), numbers.contains(&number), "{number}");
        assert_eq!(
            ElfType::from_number(number).is_some(),
            read.is_ok(),
            "{number}"
        );
    }
}

#[test]
fn symbols_keep_their_numbers_and_addends() {
    let code = finished_on(Arch::X64, "symbols 4; z 9; o 1 Abs8 s3 -4");
    let expected = [
        [1, 0, 0, 0, 0, 0, 0, 0],
        [1, 0, 0, 0, 3, 0, 0, 0],
        [0xFC, 0xFF, 0xFF, 0xFF, 0xFF, 0xFF, 0xFF, 0xFF],
    ];
    assert_eq!(code.relas(SECTION).unwrap(), expected.concat());
    let far = 1 << 31;
    let mut buffer = CodeBuffer::with_symbols(Arch::X64, far);
    let last = RelocTarget::Sym(Sym::from_id(far - 1));
    buffer.add_reloc(Reloc::Abs8, last, i64::MIN).unwrap();
    let bytes = buffer.finish().unwrap().relas(SECTION).unwrap();
    assert_eq!(bytes, entry(0, 1, far - 1, i64::MIN));
}

#[test]
fn labels_become_the_section_with_their_final_offsets() {
    let text = "c 0102030405060708; k 0 pi; jmp end; z 3; end: z 12; o 9 X86PCRel4 end -4; o 12 Abs8 pi 1; o 20 Abs4 s0";
    let expected = [
        (6, ElfType::R_X86_64_PC32, SECTION, 5 - 4),
        (9, ElfType::R_X86_64_64, SECTION, 24 + 1),
        (17, ElfType::R_X86_64_32, 0, 0),
    ];
    let expected = expected.map(|(offset, elf_type, symbol, addend)| Rela {
        offset,
        elf_type,
        symbol,
        addend,
    });
    assert_eq!(relas(Arch::X64, text), expected);
    let code = finished_on(Arch::X64, text);
    for section in [0, 1, u32::MAX] {
        let read = read_relas(&code.relas(section).unwrap()).unwrap();
        assert_eq!(read[0].symbol, section);
    }
}

#[test]
fn no_relocation_is_no_entry() {
    assert_eq!(relas(Arch::X64, "b 90"), []);
    assert_eq!(relas(Arch::AArch64, ""), []);
    assert_eq!(read_relas(&[]), Ok(Vec::new()));
}

#[test]
fn what_is_written_is_read_back() {
    let mut random = Random(24);
    for round in 0..400 {
        let arch = [Arch::X64, Arch::AArch64][round % 2];
        let (mut buffer, labels) = with_labels(arch, &mut random);
        for _ in 0..random.below(40) {
            let listed = elf_types(arch);
            let (kind, ..) = listed[random.below(listed.len() as u32) as usize];
            let target = match random.below(2) {
                0 => RelocTarget::Sym(Sym::from_id(random.below(5))),
                _ => RelocTarget::Label(labels[random.below(8) as usize]),
            };
            let offset = random.below(16_777_216);
            buffer
                .add_reloc_at_offset(offset, kind, target, any_addend(&mut random))
                .unwrap();
        }
        let code = buffer.finish().unwrap();
        let expected: Vec<Rela> = code
            .relocs()
            .iter()
            .map(|reloc| as_rela(&code, reloc))
            .collect();
        assert_eq!(read_relas(&code.relas(SECTION).unwrap()), Ok(expected));
    }
}

/// A buffer with 5 symbols and 8 labels, bound here and there.
fn with_labels(arch: Arch, random: &mut Random) -> (CodeBuffer, [Label; 8]) {
    let mut buffer = CodeBuffer::with_symbols(arch, 5);
    let labels = [(); 8].map(|()| buffer.get_label().unwrap());
    for label in labels {
        let bytes = vec![0; random.below(50) as usize];
        buffer.put_bytes(&bytes).unwrap();
        buffer.try_bind_label(label).unwrap();
    }
    (buffer, labels)
}

/// An addend of any size that leaves room for a label's offset.
fn any_addend(random: &mut Random) -> i64 {
    let high = u64::from(random.below(u32::MAX)) << 32;
    let wide = (high | u64::from(random.below(u32::MAX))).cast_signed();
    (wide >> random.below(64)).min(i64::MAX - 4_096)
}

/// The entry that a relocation of finished code is to become.
fn as_rela(code: &CodeBufferFinalized, reloc: &AsmReloc) -> Rela {
    let (symbol, place) = match reloc.target {
        RelocTarget::Sym(symbol) => (symbol.id(), 0),
        RelocTarget::Label(label) => (SECTION, code.label_offset(label).unwrap()),
    };
    Rela {
        offset: reloc.offset,
        elf_type: ElfType::of(code.arch(), reloc.kind).unwrap(),
        symbol,
        addend: reloc.addend + i64::from(place),
    }
}

/// Checks the refusal of a text's relocations, word by word.
fn refuses(arch: Arch, text: &str, entry: Option<usize>, sentence: &str) {
    let error = finished_on(arch, text).relas(SECTION).unwrap_err();
    assert_eq!(error.to_string(), sentence);
    assert_eq!(error.place(), Place::WriteRelas);
    assert_eq!(error.entry(), entry.map(Entry::Reloc));
}

#[test]
fn number_24_an_architecture_or_kind_without_a_type() {
    let sentence = "write_relas: number 24, InvalidArch: \
                    relocations are written as ELF for X64 and AArch64, and this code is for X86";
    refuses(Arch::X86, "", None, sentence);
    refuses(Arch::X86, "o 0 X86SecRel s0", None, sentence);
    let text = "z 20; o 0 Abs8 s0; o 9 X86SecRel s0; o 12 MachOX86_64Tlv s0";
    let sentence = "write_relas: number 24, InvalidArch: \
                    relocation 1, at 9 in the finished code, is of kind X86SecRel, which has no ELF type on X64";
    refuses(Arch::X64, text, Some(1), sentence);
    let sentence = "write_relas: number 24, InvalidArch: \
                    relocation 0, at 4 in the finished code, is of kind Aarch64AdrGotPage21, which has no ELF type on AArch64";
    refuses(
        Arch::AArch64,
        "z 8; o 4 Aarch64AdrGotPage21 s0",
        Some(0),
        sentence,
    );
}

#[test]
fn number_25_a_sum_past_64_bits() {
    let text = |addend| format!("b 90; n; l 0; o 0 Abs8 l0 {addend}");
    let sentence = "write_relas: number 25, TooLarge: \
                    relocation 0, at 0 in the finished code, has the addend 9223372036854775807, and with label 0 at 1 it passes 9223372036854775807";
    refuses(Arch::X64, &text(i64::MAX), Some(0), sentence);
    let most = relas(Arch::X64, &text(i64::MAX - 1));
    assert_eq!(most[0].addend, i64::MAX);
    let least = relas(Arch::AArch64, &text(i64::MIN));
    assert_eq!(least[0].addend, i64::MIN + 1);
    let mut buffer = recorded(Arch::X64, &text(i64::MAX)).unwrap();
    buffer.name_label(Label::from_id(0), "end");
    let error = buffer.finish().unwrap().relas(SECTION).unwrap_err();
    assert!(error.sentence().contains("with label end at 1"), "{error}");
}

#[test]
fn numbers_24_and_25_come_in_the_order_of_relocations() {
    let number = |text: &str| {
        let error = finished_on(Arch::X64, text).relas(SECTION).unwrap_err();
        (error.number(), error.entry())
    };
    let [overflow, no_type] = ["o 0 Abs8 l0 9223372036854775807", "o 0 X86SecRel s0"];
    let both = |first, second| format!("b 90; n; l 0; {first}; {second}");
    let first = Some(Entry::Reloc(0));
    assert_eq!(number(&both(overflow, no_type)), (25, first));
    assert_eq!(number(&both(no_type, overflow)), (24, first));
    let one = "b 90; n; l 0; o 0 X86SecRel l0 9223372036854775807";
    assert_eq!(number(one), (24, first));
}

/// Checks the refusal of entries that are read, word by word.
fn refuses_to_read(bytes: &[u8], sentence: &str) {
    let error: Error = read_relas(bytes).unwrap_err();
    assert_eq!(error.to_string(), format!("read_relas: number {sentence}"));
    assert_eq!((error.place(), error.entry()), (Place::ReadRelas, None));
}

#[test]
fn number_1_entries_that_break_their_form() {
    refuses_to_read(
        &[0; 47],
        "1, InvalidArgument: the length, 47, is no multiple of 24, the length of an entry",
    );
    let right = entry(0xFFFF_FFFF, 1, u32::MAX, -1);
    assert_eq!(read_relas(&right).unwrap()[0].offset, u32::MAX);
    refuses_to_read(
        &[right.clone(), entry(1 << 32, 1, 0, 0)].concat(),
        "1, InvalidArgument: entry 1 has the offset 4294967296, past 32 bits",
    );
    refuses_to_read(
        &[right.clone(), right, entry(0, 3, 0, 0)].concat(),
        "1, InvalidArgument: entry 2 has type 3, which is none of those that relocations are written as",
    );
}

#[test]
fn number_11_more_entries_than_a_table_holds() {
    let most = entry(5, 283, 6, 7).repeat(wargnifla::MOST_ENTRIES);
    assert_eq!(read_relas(&most).unwrap().len(), wargnifla::MOST_ENTRIES);
    let more = entry(5, 283, 6, 7).repeat(wargnifla::MOST_ENTRIES + 1);
    refuses_to_read(
        &more,
        "11, TooManyHandles: there are 65537 entries, and a table holds at most 65,536",
    );
    let wrong = [more, entry(0, 0, 0, 0)].concat();
    assert_eq!(
        read_relas(&wrong).unwrap_err().number(),
        1,
        "1 comes before 11"
    );
}

/// The answer of the writing function to an output of some length, which a refusal leaves as it is.
fn written(record: &[u8], labels: &[u8], relocs: &[u8], room: usize) -> u32 {
    let mut output = vec![0xA5; room];
    // SAFETY: every pointer and length are those of one slice, and none overlaps another.
    let number = unsafe {
        ffi::wargnifla_write_relas(
            record.as_ptr(),
            record.len(),
            labels.as_ptr(),
            labels.len(),
            relocs.as_ptr(),
            relocs.len(),
            SECTION,
            output.as_mut_ptr(),
            output.len(),
        )
    };
    if number != 0 {
        assert!(output.iter().all(|byte| *byte == 0xA5), "{number}");
    }
    number
}

/// Words in bytes.
fn words(words: &[u32]) -> Vec<u8> {
    words.iter().flat_map(|word| word.to_le_bytes()).collect()
}

#[test]
fn the_writer_answers_in_order() {
    const UNBOUND_LABEL: u32 = 1 << 31 | 1;
    let record = |arch, relocs| words(&[arch, 0, 32, 0, 2, relocs]);
    let labels = words(&[1, u32::MAX]);
    let abs8 = words(&[0, 1, 0, 0, 0, 0]);
    let no_type = words(&[0, 6, 0, 0, 0, 0]);
    let unbound = words(&[0, 1, UNBOUND_LABEL, 0, 0, 0]);
    let unknown = words(&[0, 1, UNBOUND_LABEL + 1, 0, 0, 0]);
    let overflow = words(&[0, 1, 1 << 31, 0, u32::MAX, u32::MAX >> 1]);
    let long = vec![0; 24 * (wargnifla::MOST_ENTRIES + 1)];
    let x64 =
        |relocs: &[u8], room| written(&record(2, relocs.len() as u32 / 24), &labels, relocs, room);
    assert_eq!(x64(&abs8, 24), 0);
    assert_eq!(x64(&abs8, 23), 26);
    assert_eq!(x64(&[], 0), 0);
    assert_eq!(x64(&overflow, 0), 25, "before 26");
    assert_eq!(x64(&no_type, 0), 24, "before 26");
    assert_eq!(x64(&[&no_type[..], &unbound].concat(), 48), 1, "over all");
    assert_eq!(x64(&[&overflow[..], &unknown].concat(), 48), 1, "over all");
    assert_eq!(written(&record(2, 1)[..23], &labels, &abs8, 24), 1);
    assert_eq!(written(&record(2, 2), &labels, &abs8, 48), 1, "the count");
    assert_eq!(written(&record(2, 1), &labels[..7], &abs8, 24), 1);
    assert_eq!(
        written(&record(1, 1), &labels, &unbound, 24),
        1,
        "before 24"
    );
    assert_eq!(written(&record(1, 1), &labels, &long, 24), 3, "before 24");
    assert_eq!(written(&record(1, 0), &long, &[], 0), 3, "before 24");
    assert_eq!(written(&record(1, 1), &labels, &abs8, 0), 24, "before 26");
    assert_eq!(written(&[0; 24], &[], &[], 0), 24, "a record of zeros");
    let partial = vec![0; 24 * wargnifla::MOST_ENTRIES + 23];
    assert_eq!(written(&record(2, 1), &labels, &partial, 24), 0, "not 3");
}

#[test]
fn the_reader_answers_in_order() {
    let read = |relas: &[u8], room: usize| {
        let mut table = vec![0xA5; room];
        // SAFETY: every pointer and length are those of one slice, and none overlaps another.
        let number = unsafe {
            ffi::wargnifla_read_relas(relas.as_ptr(), relas.len(), table.as_mut_ptr(), table.len())
        };
        let written = if number == 0 { relas.len() } else { 0 };
        assert!(table[written..].iter().all(|byte| *byte == 0xA5));
        number
    };
    let (right, wrong) = (entry(0, 1, 0, 0), entry(0, 3, 0, 0));
    let past_limit = 24 * (wargnifla::MOST_ENTRIES + 1);
    assert_eq!(read(&right, 24), 0);
    assert_eq!(read(&right, 24 + 23), 0);
    assert_eq!(read(&right, 23), 11);
    assert_eq!(read(&right, past_limit), 3);
    assert_eq!(read(&right, past_limit - 1), 0, "a part of an entry");
    assert_eq!(read(&[right.clone(), wrong.clone()].concat(), 24), 1);
    assert_eq!(read(&wrong, past_limit), 1);
    assert_eq!(read(&right[1..], past_limit), 1);
    assert_eq!(read(&[right, entry(0, 257, 0, 0)].concat(), 48), 0);
}
