//! Objects of joined code, and of code that defines symbols.

use wargnifla::{Arch, LabelUse, Reloc, RelocTarget, Sym, join, read_relas};

use crate::Rule;
use crate::reader::Object;

const LOCAL: u8 = 0;
const GLOBAL: u8 = 1;
const UNDEF: u16 = 0;
const TEXT: u16 = 1;

/// The symbols of an object: name, binding, section and value.
fn symbols(object: &Object) -> Vec<(String, u8, u16, u64)> {
    let symbols = object.symbols().into_iter();
    symbols
        .map(|(name, binding, _, section, value)| (name, binding, section, value))
        .collect()
}

fn expect(object: &Object, expected: &[(&str, u8, u16, u64)]) {
    let expected: Vec<_> = expected
        .iter()
        .map(|(name, binding, section, value)| ((*name).to_owned(), *binding, *section, *value))
        .collect();
    assert_eq!(symbols(object), expected);
}

#[test]
fn what_a_label_defines_is_a_symbol_of_the_object() {
    let mut rule = Rule::new(Arch::X64, &["sort", "puts"]);
    let (entry, inner, same) = (
        rule.label("entry"),
        rule.label(".inner"),
        rule.label("same"),
    );
    let never = rule.label("never");
    rule.bytes(&[0x90]);
    rule.bind(entry);
    rule.bind(inner);
    rule.bind(same);
    rule.field(Reloc::Abs8, Sym::from_id(0), 0);
    rule.field(Reloc::Abs8, Sym::from_id(1), 0);
    rule.buffer.bind_symbol(Sym::from_id(0), entry);
    rule.buffer.bind_symbol("same", same);
    rule.buffer.bind_symbol(".within", inner);
    rule.buffer.bind_symbol(Sym::from_id(9), inner);
    rule.buffer.bind_symbol("not_bound", never);
    let object = Object::read(&rule.object());
    let expected = [
        (".inner", LOCAL, TEXT, 1),
        (".within", LOCAL, TEXT, 1),
        ("puts", GLOBAL, UNDEF, 0),
        ("entry", GLOBAL, TEXT, 1),
        ("sort", GLOBAL, TEXT, 1),
        ("same", GLOBAL, TEXT, 1),
        ("s9", GLOBAL, TEXT, 1),
    ];
    expect(&object, &expected);
    let relas = read_relas(&object.section(".rela.text").bytes).unwrap();
    let numbers: Vec<u32> = relas.iter().map(|rela| rela.symbol).collect();
    assert_eq!(numbers, [2 + 4, 2 + 2], "sort and puts");
}

#[test]
fn a_name_is_defined_once() {
    let mut rule = Rule::new(Arch::X64, &[]);
    let (first, second) = (rule.label("sort"), rule.label("other"));
    rule.bind(first);
    rule.bind(second);
    rule.buffer.bind_symbol("sort", second);
    let error = rule.finish().object().unwrap_err();
    assert_eq!(
        error.to_string(),
        "label 0 and label 1 are both named 'sort', and an object has one symbol of a name"
    );
}

/// A rule that names a symbol in an address and a call, and has a label of its own.
fn caller() -> Rule {
    let mut rule = Rule::new(Arch::X64, &["unused", "sort", "puts"]);
    let inner = rule.label(".inner");
    rule.bind(inner);
    rule.bytes(&[0xE8]);
    rule.field(Reloc::X86CallPLTRel4, Sym::from_id(1), -4);
    rule.field(Reloc::Abs8, Sym::from_id(1), 3);
    rule.field(Reloc::Abs8, Sym::from_id(2), 0);
    rule.field(Reloc::Abs8, inner, 0);
    rule
}

fn callee() -> Rule {
    let mut rule = Rule::new(Arch::X64, &["puts"]);
    let (inner, sort) = (rule.label(".inner"), rule.label("sort"));
    rule.bind(inner);
    rule.field(Reloc::X86GOTPCRel4, Sym::from_id(0), -4);
    rule.bind(sort);
    rule
}

#[test]
fn a_whole_has_the_symbols_of_its_pieces() {
    let whole = join([&caller().finish(), &callee().finish()]).unwrap();
    let object = Object::read(&whole.code().object().unwrap());
    let expected = [
        (".inner", LOCAL, TEXT, 0),
        (".inner", LOCAL, TEXT, 32),
        ("puts", GLOBAL, UNDEF, 0),
        ("sort", GLOBAL, TEXT, 36),
    ];
    expect(&object, &expected);
    assert_eq!(object.section(".symtab").sh_info, 4, "the first global one");
    let relas = read_relas(&object.section(".rela.text").bytes).unwrap();
    let relas: Vec<_> = relas
        .iter()
        .map(|rela| (rela.offset, rela.symbol, rela.addend))
        .collect();
    assert_eq!(relas, [(5, 5, 3), (13, 4, 0), (21, 1, 0), (32, 4, -4)]);
    assert_eq!(object.section(".text").bytes[1..5], [31, 0, 0, 0]);
    assert_eq!(object.section(".text").sh_addralign, 32);
}

#[test]
fn pages_of_any_piece_align_the_section() {
    let page = || {
        let mut rule = Rule::new(Arch::AArch64, &[]);
        let here = rule.label(".here");
        rule.bind(here);
        let used = rule
            .buffer
            .use_label_at_offset(0, here, LabelUse::A64Adrp21);
        used.unwrap();
        rule.bytes(&[0, 0, 0, 0x90]);
        rule.finish()
    };
    let plain = || {
        let mut rule = Rule::new(Arch::AArch64, &["callee"]);
        let callee = RelocTarget::Sym(Sym::from_id(0));
        rule.instruction(0x9400_0000, Reloc::Arm64Call, callee, 0);
        rule.finish()
    };
    let whole = join([&plain(), &page()]).unwrap();
    assert_eq!(whole.bases(), [0, 4096]);
    assert_eq!(whole.code().alignment(), 32);
    assert_eq!(whole.code().section_alignment(), 4096);
    let whole = join([&plain(), &plain()]).unwrap();
    assert_eq!(whole.code().section_alignment(), 32);
}
