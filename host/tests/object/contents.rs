//! What stands in an object, without any other program.

use wargnifla::{
    Arch, CodeBuffer, ElfType, Label, LabelUse, ObjectError, Rela, Reloc, RelocTarget, Sym,
    read_relas,
};

use crate::Rule;
use crate::reader::Object;

const LOCAL: u8 = 0;
const GLOBAL: u8 = 1;
const NOTYPE: u8 = 0;
const TLS: u8 = 6;
const UNDEF: u16 = 0;
const TEXT: u16 = 1;

/// A call of symbol 0 and the address of a label behind it.
fn small_rule(arch: Arch) -> Rule {
    let mut rule = Rule::new(arch, &["puts"]);
    let end = rule.label("end");
    let call = match arch {
        Arch::AArch64 => Reloc::Arm64Call,
        _ => Reloc::X86CallPLTRel4,
    };
    rule.field(call, Sym::from_id(0), -4);
    rule.field(Reloc::Abs8, end, 3);
    rule.bind(end);
    rule
}

#[test]
fn an_object_has_its_sections() {
    // AArch64 has two mapping symbols.
    for (arch, machine, first_global) in [(Arch::X64, 62, 2), (Arch::AArch64, 183, 2 + 2)] {
        let object = Object::read(&small_rule(arch).object());
        assert_eq!(object.e_machine, machine);
        let headers: Vec<_> = object
            .sections
            .iter()
            .map(|section| {
                (
                    section.name.as_str(),
                    section.sh_type,
                    section.sh_flags,
                    [section.sh_link, section.sh_info],
                    [section.sh_addralign, section.sh_entsize],
                )
            })
            .collect();
        let expected = [
            (".text", 1, 6, [0, 0], [32, 0]),
            (".rela.text", 4, 0x40, [3, 1], [8, 24]),
            (".symtab", 2, 0, [4, first_global], [8, 24]),
            (".strtab", 3, 0, [0, 0], [1, 0]),
            (".note.GNU-stack", 1, 0, [0, 0], [1, 0]),
            (".shstrtab", 3, 0, [0, 0], [1, 0]),
        ];
        assert_eq!(headers, expected);
        assert_eq!(object.section(".text").bytes, [0; 12]);
        assert_eq!(object.section(".note.GNU-stack").bytes, []);
        let [call, address] = match arch {
            Arch::AArch64 => [ElfType::R_AARCH64_CALL26, ElfType::R_AARCH64_ABS64],
            _ => [ElfType::R_X86_64_PLT32, ElfType::R_X86_64_64],
        };
        let rela = |offset, elf_type, symbol, addend| Rela {
            offset,
            elf_type,
            symbol,
            addend,
        };
        let relas = read_relas(&object.section(".rela.text").bytes).unwrap();
        let expected = [rela(0, call, first_global, -4), rela(4, address, 1, 12 + 3)];
        assert_eq!(relas, expected);
    }
}

#[test]
fn an_object_of_nothing_has_its_sections_too() {
    let object = Object::read(&Rule::new(Arch::X64, &[]).object());
    assert_eq!(object.sections.len(), 6);
    assert_eq!(object.symbols(), []);
}

#[test]
fn symbols_stand_in_order_under_their_names() {
    let mut rule = Rule::new(Arch::X64, &["unused", "exit", "cell"]);
    let (first, inner) = (rule.label("first"), rule.label(".inner"));
    rule.label("never_bound");
    let unnamed = rule.buffer.get_label().unwrap();
    let last = rule.label("last");
    let inner_too = rule.label(".L0");
    rule.bind(first);
    rule.field(Reloc::ElfX86_64TlsGd, Sym::from_id(2), -4);
    rule.field(Reloc::X86CallPCRel4, Sym::from_id(1), -4);
    rule.bind(inner);
    rule.bind(unnamed);
    rule.field(Reloc::Abs8, unnamed, 0);
    rule.bind(last);
    rule.bind(inner_too);
    let object = Object::read(&rule.object());
    let expected = [
        (".inner", LOCAL, NOTYPE, TEXT, 8),
        (".L0", LOCAL, NOTYPE, TEXT, 16),
        ("exit", GLOBAL, NOTYPE, UNDEF, 0),
        ("cell", GLOBAL, TLS, UNDEF, 0),
        ("first", GLOBAL, NOTYPE, TEXT, 0),
        ("last", GLOBAL, NOTYPE, TEXT, 16),
    ];
    let expected = expected.map(|(name, binding, st_type, section, value)| {
        (name.to_owned(), binding, st_type, section, value)
    });
    assert_eq!(object.symbols(), expected);
    assert_eq!(object.section(".symtab").sh_info, 4, "the first global one");
    let relas = read_relas(&object.section(".rela.text").bytes).unwrap();
    let symbols: Vec<u32> = relas.iter().map(|rela| rela.symbol).collect();
    assert_eq!(symbols, [5, 4, 1]);
}

#[test]
fn symbols_without_names_go_by_their_numbers() {
    let mut buffer = CodeBuffer::with_symbols(Arch::X64, u32::MAX);
    for symbol in [7, 0, (1 << 31) - 1] {
        let target = RelocTarget::Sym(Sym::from_id(symbol));
        buffer.add_reloc(Reloc::Abs8, target, 0).unwrap();
        buffer.put8(0).unwrap();
    }
    let object = Object::read(&buffer.finish().unwrap().object().unwrap());
    let symbols = object.symbols();
    let names: Vec<&str> = symbols.iter().map(|symbol| symbol.0.as_str()).collect();
    assert_eq!(names, ["s0", "s7", "s2147483647"]);
}

#[test]
fn the_section_is_aligned_as_the_code_asks() {
    let aligned = |rule: Rule| {
        let code = rule.finish();
        let object = Object::read(&code.object().unwrap());
        let alignment = object.section(".text").sh_addralign;
        assert_eq!(alignment, code.section_alignment().into());
        alignment
    };
    assert_eq!(aligned(small_rule(Arch::X64)), 32);
    assert_eq!(aligned(small_rule(Arch::AArch64)), 32);
    for arch in [Arch::X64, Arch::AArch64] {
        let mut rule = small_rule(arch);
        let wide = rule.buffer.add_constant(&[1; 33]).unwrap();
        rule.buffer.get_label_for_constant(wide).unwrap();
        assert_eq!(aligned(rule), 64);
    }
    for (kind, alignment) in [
        (LabelUse::A64Adr21, 32),
        (LabelUse::A64Adrp21, 4096),
        (LabelUse::A64AddAbsLo12, 4096),
    ] {
        let mut rule = small_rule(Arch::AArch64);
        let end = Label::from_id(0);
        rule.buffer.use_label_at_offset(0, end, kind).unwrap();
        assert_eq!(aligned(rule), alignment, "{kind}");
    }
}

/// What is wrong with the names of label 0, which is bound, and of symbols 0 and 1, which relocations name.
fn wrong_names(label: &str, symbols: [Option<&str>; 2]) -> ObjectError {
    let mut buffer = CodeBuffer::with_symbols(Arch::X64, 2);
    let bound = buffer.get_label().unwrap();
    buffer.name_label(bound, label);
    buffer.try_bind_label(bound).unwrap();
    for (symbol, name) in [0, 1].map(Sym::from_id).into_iter().zip(symbols) {
        let target = RelocTarget::Sym(symbol);
        buffer.add_reloc(Reloc::Abs8, target, 0).unwrap();
        buffer.put8(0).unwrap();
        if let Some(name) = name {
            buffer.name_symbol(symbol, name);
        }
    }
    buffer.finish().unwrap().object().unwrap_err()
}

#[test]
fn a_name_stands_once() {
    let twice = |label, symbols, expected: &str| {
        let error = wrong_names(label, symbols).to_string();
        assert_eq!(
            error,
            format!("{expected}, and an object has one symbol of a name")
        );
    };
    twice(
        "rule",
        [Some("puts"), Some("puts")],
        "symbol 0 and symbol 1 are both named 'puts'",
    );
    twice(
        "puts",
        [None, Some("puts")],
        "symbol 1 and label 0 are both named 'puts'",
    );
    twice(
        "s1",
        [None, None],
        "symbol 1 and label 0 are both named 's1'",
    );
    twice(
        "rule",
        [Some("s1"), None],
        "symbol 0 and symbol 1 are both named 's1'",
    );
    twice(
        ".x",
        [Some(".x"), None],
        "label 0 and symbol 0 are both named '.x'",
    );
}

#[test]
fn a_name_has_bytes_and_no_zero_among_them() {
    let label = RelocTarget::Label(Label::from_id(0));
    assert_eq!(wrong_names("", [None, None]), ObjectError::UnfitName(label));
    let error = wrong_names("rule", [None, Some("a\0b")]);
    assert_eq!(
        error.to_string(),
        "the name of symbol 1 is empty or has a zero byte, and no symbol of an object has such a name"
    );
}

#[test]
fn fields_stand_within_the_code() {
    let object = |kind, offset| {
        let mut rule = Rule::new(Arch::X64, &["cell"]);
        rule.field(Reloc::Abs8, Sym::from_id(0), 0);
        let cell = RelocTarget::Sym(Sym::from_id(0));
        let recorded = rule.buffer.add_reloc_at_offset(offset, kind, cell, 0);
        recorded.unwrap();
        rule.finish().object()
    };
    assert!(object(Reloc::Abs8, 0).is_ok());
    assert!(object(Reloc::Abs4, 4).is_ok());
    let past_end = |kind, offset, sentence: &str| {
        let error = ObjectError::FieldPastEnd {
            relocation: 1,
            sentence: sentence.into(),
        };
        assert_eq!(object(kind, offset), Err(error));
    };
    past_end(
        Reloc::Abs4,
        5,
        "relocation 1, at 5 in the finished code, has a field of 4 bytes, which passes the end of the code, 8",
    );
    past_end(
        Reloc::Abs8,
        16_777_215,
        "relocation 1, at 16777215 in the finished code, has a field of 8 bytes, which passes the end of the code, 8",
    );
}

#[test]
fn got_entries_are_for_symbols() {
    let object = |kind, target: RelocTarget| {
        let mut rule = Rule::new(Arch::X64, &["cell"]);
        let end = rule.label("end");
        let constant = rule.buffer.add_constant(&[7; 8]).unwrap();
        let constant = rule.buffer.get_label_for_constant(constant).unwrap();
        rule.field(Reloc::X86PCRel4, constant, -4);
        rule.field(kind, target, -4);
        rule.bind(end);
        rule.finish().object()
    };
    for kind in [Reloc::X86GOTPCRel4, Reloc::ElfX86_64TlsGd] {
        assert!(object(kind, Sym::from_id(0).into()).is_ok());
        for (label, name) in [(0, "label end"), (1, "label 1")] {
            let sentence = format!(
                "relocation 1, at 4 in the finished code, is of kind {kind} and names {name}, \
                 but a linker makes GOT entries for symbols alone: name a symbol instead"
            );
            let error = ObjectError::LabelInGot {
                relocation: 1,
                sentence,
            };
            assert_eq!(object(kind, Label::from_id(label).into()), Err(error));
        }
    }
}

#[test]
fn relocations_are_refused_as_they_are_without_an_object() {
    let mut x86 = CodeBuffer::new(Arch::X86);
    let labels = [x86.get_label().unwrap(), x86.get_label().unwrap()];
    for label in labels {
        x86.name_label(label, "same");
        x86.try_bind_label(label).unwrap();
    }
    let mut no_type = Rule::new(Arch::X64, &["a", "b"]);
    no_type.field(Reloc::Abs8, Sym::from_id(1), 0);
    no_type.field(Reloc::X86SecRel, Sym::from_id(0), 0);
    let mut overflow = Rule::new(Arch::X64, &[]);
    let end = overflow.label("end");
    overflow.field(Reloc::Abs8, end, i64::MAX);
    overflow.bind(end);
    for (code, number) in [
        (x86.finish().unwrap(), 24),
        (no_type.finish(), 24),
        (overflow.finish(), 25),
    ] {
        let expected = code.relas(1).unwrap_err();
        assert_eq!(expected.number(), number);
        assert_eq!(code.object(), Err(ObjectError::Relocations(expected)));
    }
}
