//! Relocations as readelf and objdump show them.

use wargnifla::{Arch, Reloc, RelocTarget, Sym};

use crate::Rule;
use crate::binutils::{Folder, are_at_hand};
use crate::elf_types::elf_types;

/// What is to be shown of a relocation: offset, type, symbol and addend.
type Shown = (u32, String, String, i64);

/// A rule with a relocation of every kind that has a type, to a symbol and, unless a linker makes GOT entries for it, to a label behind 8 bytes; and
/// what is to be shown of them.
fn every_kind(arch: Arch) -> (Rule, Vec<Shown>) {
    let mut rule = Rule::new(arch, &["cell"]);
    let mut expected = Vec::new();
    rule.bytes(&[0; 8]);
    let label = rule.label("here");
    rule.bind(label);
    for (i, (kind, name, _)) in (0..).zip(elf_types(arch)) {
        let targets: [(RelocTarget, &str, i64); 2] = [
            (Sym::from_id(0).into(), "cell", 0),
            (label.into(), ".text", 8),
        ];
        let targets = match kind {
            Reloc::X86GOTPCRel4 | Reloc::ElfX86_64TlsGd => &targets[..1],
            _ => &targets[..],
        };
        for &(target, symbol, place) in targets {
            let (offset, addend) = (rule.buffer.cur_offset(), 3 - 2 * i);
            rule.field(*kind, target, addend);
            expected.push((
                offset,
                (*name).to_owned(),
                symbol.to_owned(),
                addend + place,
            ));
        }
    }
    (rule, expected)
}

/// A hexadecimal number.
fn hexadecimal(digits: &str) -> i64 {
    i64::from_str_radix(digits, 16).unwrap()
}

/// A line such as `000000000000000c  0000000200000004 R_X86_64_PLT32         0000000000000000 puts - 4`.
fn of_readelf(line: &str) -> Option<Shown> {
    let words: Vec<&str> = line.split_whitespace().collect();
    let [offset, _, name, _, symbol, sign, addend] = words[..] else {
        return None;
    };
    let offset = u32::from_str_radix(offset, 16).ok()?;
    let addend = match sign {
        "-" => -hexadecimal(addend),
        _ => hexadecimal(addend),
    };
    Some((offset, name.into(), symbol.into(), addend))
}

#[test]
fn readelf_shows_every_type_by_its_name() {
    if !are_at_hand(&["readelf"], "relocations shown by readelf") {
        return;
    }
    let folder = Folder::new("object-readelf");
    for arch in [Arch::X64, Arch::AArch64] {
        let (rule, expected) = every_kind(arch);
        folder.write("rule.o", rule.object());
        let printed = folder.printed("readelf --wide --relocs rule.o");
        let shown: Vec<Shown> = printed.lines().filter_map(of_readelf).collect();
        assert_eq!(shown, expected, "{printed}");
    }
}

/// A line such as `c: R_X86_64_PLT32  puts-0x4`.
fn of_objdump(line: &str) -> Option<Shown> {
    let words: Vec<&str> = line.split_whitespace().collect();
    let [offset, name, value] = words[..] else {
        return None;
    };
    let offset = u32::from_str_radix(offset.strip_suffix(':')?, 16).ok()?;
    let (symbol, addend) = match value.split_once("+0x") {
        Some((symbol, addend)) => (symbol, hexadecimal(addend)),
        None => match value.split_once("-0x") {
            Some((symbol, addend)) => (symbol, -hexadecimal(addend)),
            None => (value, 0),
        },
    };
    name.starts_with("R_")
        .then(|| (offset, name.into(), symbol.into(), addend))
}

#[test]
fn objdump_shows_the_same_beside_the_code() {
    let programs = [
        (Arch::X64, "objdump"),
        (Arch::AArch64, "aarch64-linux-gnu-objdump"),
    ];
    let folder = Folder::new("object-objdump");
    for (arch, objdump) in programs {
        if !are_at_hand(&[objdump], &format!("{arch} code shown by objdump")) {
            continue;
        }
        let (rule, expected) = every_kind(arch);
        folder.write("rule.o", rule.object());
        let printed = folder.printed(&format!("{objdump} -dr rule.o"));
        let shown: Vec<Shown> = printed.lines().filter_map(of_objdump).collect();
        assert_eq!(shown, expected, "{printed}");
    }
}
