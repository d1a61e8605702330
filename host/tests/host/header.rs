//! include/wargnifla.h has the names and numbers that this package has.

use std::collections::BTreeSet;
use std::fmt::Debug;

use wargnifla::{Arch, AsmConstant, Call, CodeBuffer, ElfType, LabelUse, Refusal, Reloc};

const HEADER: &str = include_str!("../../../include/wargnifla.h");

/// The enumerators of an enum, without their prefix, and their numbers.
fn enumerators(name: &str, prefix: &str) -> Vec<(String, u32)> {
    let (_, after) = HEADER
        .split_once(&format!("enum {name} {{"))
        .expect("the enum stands in the header");
    let (body, _) = after.split_once("};").expect("the enum ends");
    body.lines()
        .filter_map(|line| line.trim().strip_prefix(prefix))
        .map(|line| {
            let (name, number) = line.split_once(" = ").expect("each has a number");
            let digits = number.split([',', ' ']).next().expect("a word");
            (name.to_owned(), digits.parse().expect("a number"))
        })
        .collect()
}

/// What a macro stands for.
fn defined(name: &str) -> &'static str {
    let (_, after) = HEADER
        .split_once(&format!("#define {name} "))
        .expect("the macro stands in the header");
    let line = after.lines().next().expect("a line");
    line.split("/*").next().expect("what it stands for").trim()
}

fn named<T: Copy + Debug>(all: &[T], number: impl Fn(T) -> u32) -> Vec<(String, u32)> {
    all.iter()
        .map(|&value| (format!("{value:?}"), number(value)))
        .collect()
}

/// `UnknownArch` as `UNKNOWN_ARCH`.
fn in_capitals(name: &str) -> String {
    let mut capitals = String::new();
    for (index, letter) in name.char_indices() {
        if index > 0 && letter.is_uppercase() {
            capitals.push('_');
        }
        capitals.push(letter.to_ascii_uppercase());
    }
    capitals
}

fn in_capitals_all(names: Vec<(String, u32)>) -> Vec<(String, u32)> {
    names
        .into_iter()
        .map(|(name, number)| (in_capitals(&name), number))
        .collect()
}

#[test]
fn refusals() {
    let mut expected = vec![("ACCEPTED".to_owned(), 0)];
    expected.extend(in_capitals_all(named(&Refusal::ALL, Refusal::number)));
    assert_eq!(enumerators("wargnifla_refusal", "WARGNIFLA_"), expected);
    for (name, number) in expected {
        assert_eq!(
            HEADER.matches(&format!("\"{name}\"")).count(),
            1,
            "{number}"
        );
    }
}

/// The strings that an inline function of the header has in its array.
fn strings_of(function: &str) -> Vec<&'static str> {
    let (_, after) = HEADER
        .split_once(&format!("*{function}("))
        .expect("the function stands in the header");
    let (_, array) = after.split_once("[] = {").expect("it has an array");
    let (array, _) = array.split_once("};").expect("the array ends");
    array.split('"').skip(1).step_by(2).collect()
}

#[test]
fn every_refusal_has_a_text_of_its_own() {
    let texts = strings_of("wargnifla_refusal_text");
    assert_eq!(texts.len(), 1 + Refusal::ALL.len());
    let different: BTreeSet<&str> = texts.iter().copied().collect();
    assert_eq!(different.len(), texts.len());
    assert!(texts.iter().all(|text| !text.is_empty()));
}

#[test]
fn kinds_of_field_and_relocation() {
    assert_eq!(
        enumerators("wargnifla_field", "WARGNIFLA_FIELD_"),
        named(&LabelUse::ALL, LabelUse::code)
    );
    assert_eq!(
        enumerators("wargnifla_reloc", "WARGNIFLA_RELOC_"),
        named(&Reloc::ALL, Reloc::number)
    );
}

/// The architectures that the comment beside a kind of relocation names.
fn archs_beside(kind: &str) -> Vec<Arch> {
    let (_, after) = HEADER
        .split_once(&format!("WARGNIFLA_RELOC_{kind} = "))
        .expect("the kind stands in the header");
    let (_, comment) = after.split_once("/* ").expect("a comment stands beside it");
    let (names, _) = comment.split_once(" */").expect("the comment ends");
    Arch::ALL
        .into_iter()
        .filter(|arch| names.split(", ").any(|name| name == format!("{arch:?}")))
        .collect()
}

#[test]
fn architectures_of_relocations() {
    for kind in Reloc::ALL {
        let taken: Vec<Arch> = Arch::ALL
            .into_iter()
            .filter(|&arch| {
                let call = Call::Relocation {
                    offset: 0,
                    kind: kind.number(),
                    target: 0,
                    addend: 0,
                };
                match CodeBuffer::with_symbols(arch, 1).call(&call) {
                    Ok(()) => true,
                    Err(error) => {
                        assert_eq!(error.number(), 7, "{kind:?}");
                        false
                    }
                }
            })
            .collect();
        assert_eq!(archs_beside(&format!("{kind:?}")), taken, "{kind:?}");
    }
}

#[test]
fn elf_types() {
    assert_eq!(
        enumerators("wargnifla_elf_type", "WARGNIFLA_"),
        named(&ElfType::ALL, ElfType::number)
    );
}

#[test]
fn architectures() {
    let names = named(&Arch::ALL, Arch::number);
    let expected: Vec<_> = names
        .into_iter()
        .map(|(name, number)| (name.to_uppercase(), number))
        .collect();
    assert_eq!(enumerators("wargnifla_arch", "WARGNIFLA_"), expected);
}

#[test]
fn calls() {
    let calls: [(&str, Call); 10] = [
        ("BYTES", Call::Bytes([].into())),
        ("NEW_LABEL", Call::NewLabel),
        ("BIND", Call::Bind(0)),
        ("ALIGN", Call::align(1)),
        (
            "USE",
            Call::Use {
                offset: 0,
                label: 0,
                code: 0,
            },
        ),
        (
            "REF",
            Call::Ref {
                offset: 0,
                label: 0,
                code: 0,
                addend: 0,
            },
        ),
        (
            "JUMP",
            Call::Jump {
                start: 0,
                length: 2,
                label: 0,
                condition: 16,
            },
        ),
        ("CONSTANT", Call::Constant([].into())),
        ("CONSTANT_LABEL", Call::ConstantLabel(0)),
        (
            "RELOCATION",
            Call::Relocation {
                offset: 0,
                kind: 0,
                target: 0,
                addend: 0,
            },
        ),
    ];
    let expected: Vec<_> = calls
        .iter()
        .map(|(name, call)| ((*name).to_owned(), u32::from(call.kind())))
        .collect();
    assert_eq!(enumerators("wargnifla_call", "WARGNIFLA_CALL_"), expected);
}

#[test]
fn limits_and_the_stack_of_finish_and_join() {
    let number = |name: &str| defined(name).parse::<usize>().expect("a number");
    assert_eq!(number("WARGNIFLA_MOST_CODE"), wargnifla::MOST_CODE);
    assert_eq!(number("WARGNIFLA_MOST_ENTRIES"), wargnifla::MOST_ENTRIES);
    assert_eq!(number("WARGNIFLA_MOST_CONSTANT"), wargnifla::MOST_CONSTANT);
    assert_eq!(number("WARGNIFLA_MOST_PIECES"), wargnifla::MOST_PIECES);
    assert_eq!(
        number("WARGNIFLA_DEFAULT_MOST"),
        wargnifla::DEFAULT_MOST as usize
    );
    assert_eq!(number("WARGNIFLA_FINISH_STACK"), wargnifla::FINISH_STACK);
    assert_eq!(number("WARGNIFLA_JOIN_STACK"), wargnifla::JOIN_STACK);
    let longest = AsmConstant {
        data: vec![0; wargnifla::MOST_CONSTANT],
        label: None,
    };
    let padding = longest.alignment() as usize - 1;
    assert_eq!(
        number("WARGNIFLA_MOST_POOLED"),
        padding + longest.data.len()
    );
}

#[test]
fn counts() {
    let number = |name: &str| defined(name).parse::<usize>().expect("a number");
    let counts = enumerators("wargnifla_count", "WARGNIFLA_COUNT_");
    assert_eq!(number("WARGNIFLA_COUNTS_BYTES"), 4 * counts.len());
    assert_eq!(counts.last(), Some(&("OPEN".to_owned(), 12)));
    assert_eq!(number("WARGNIFLA_MOST_OPEN"), 4 * wargnifla::MOST_ENTRIES);
}

unsafe extern "C" {
    safe fn wargnifla_version() -> u32;
}

#[test]
fn version() {
    let version = env!("CARGO_PKG_VERSION");
    assert_eq!(defined("WARGNIFLA_VERSION"), format!("\"{version}\""));
    let parts =
        ["MAJOR", "MINOR", "PATCH"].map(|part| defined(&format!("WARGNIFLA_VERSION_{part}")));
    assert_eq!(parts.join("."), version);
    let [major, minor, patch] = parts.map(|part| part.parse::<u32>().expect("a number"));
    let number = major * 1_000_000 + minor * 1_000 + patch;
    assert_eq!(defined("WARGNIFLA_VERSION_NUMBER"), number.to_string());
    assert_eq!(wargnifla_version(), number);
}
