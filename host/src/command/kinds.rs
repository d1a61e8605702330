//! The codes of label uses and the kinds of relocations, listed.

use wargnifla::{Arch, Call, CodeBuffer, ElfType, LabelUse, Reloc, RelocTarget, Sym};

/// A table of the codes, and one of the kinds.
pub fn tables() -> String {
    let uses: String = LabelUse::ALL.into_iter().map(use_line).collect();
    let relocations: String = Reloc::ALL.into_iter().map(relocation_line).collect();
    format!(
        "label uses\n    code  name                         bytes  architectures\n{uses}\n\
         relocations\n    kind  name                         bytes  architectures and ELF types\n{relocations}"
    )
}

fn use_line(kind: LabelUse) -> String {
    let taken = Arch::ALL.into_iter().filter(|arch| takes_use(*arch, kind));
    let taken: Vec<String> = taken.map(|arch| arch.to_string()).collect();
    // A kind that no recording keeps has no field.
    let size = match taken.is_empty() {
        true => "-".into(),
        false => kind.patch_size().to_string(),
    };
    line(kind.code(), &kind.to_string(), &size, &taken)
}

fn relocation_line(kind: Reloc) -> String {
    let taken = Arch::ALL.into_iter();
    let taken = taken.filter(|arch| takes_relocation(*arch, kind));
    let taken = taken.map(|arch| match ElfType::of(arch, kind) {
        Some(ty) => format!("{arch} ({ty})"),
        None => arch.to_string(),
    });
    let taken: Vec<String> = taken.collect();
    let size = kind.field_size().to_string();
    line(kind.number(), &kind.to_string(), &size, &taken)
}

fn line(number: u32, name: &str, size: &str, archs: &[String]) -> String {
    let archs = match archs.is_empty() {
        true => "none".into(),
        false => archs.join(", "),
    };
    format!("{number:>8}  {name:<27}  {size:>5}  {archs}\n")
}

/// Whether recordings for an architecture take a use: the library itself is asked.
fn takes_use(arch: Arch, kind: LabelUse) -> bool {
    let made = Call::Use {
        offset: 0,
        label: 0,
        code: kind.code(),
    };
    takes(arch, &[Call::NewLabel, made])
}

fn takes_relocation(arch: Arch, kind: Reloc) -> bool {
    let made = Call::Relocation {
        offset: 0,
        kind: kind.number(),
        target: RelocTarget::Sym(Sym::from_id(0)).to_word(),
        addend: 0,
    };
    takes(arch, &[made])
}

fn takes(arch: Arch, calls: &[Call]) -> bool {
    let mut buffer = CodeBuffer::with_symbols(arch, 1);
    calls.iter().all(|call| buffer.call(call).is_ok())
}

#[cfg(test)]
mod tests {
    use super::*;

    #[test]
    fn kinds_belong_to_the_architectures_of_the_definition() {
        let archs = |kind| Arch::ALL.map(|arch| takes_use(arch, kind));
        assert_eq!(archs(LabelUse::X86JmpRel32), [true, true, false]);
        assert_eq!(archs(LabelUse::A64Adr21), [false, false, true]);
        assert_eq!(archs(LabelUse::A64Ldr12), [false; 3]);
        assert_eq!(archs(LabelUse::RVCB9), [false; 3]);
        for kind in Reloc::ALL {
            let expected = match kind.number() {
                0 | 1 => [true; 3],
                2..=6 | 9 | 10 => [true, true, false],
                8 | 11..=21 => [false, false, true],
                _ => [false; 3],
            };
            let taken = Arch::ALL.map(|arch| takes_relocation(arch, kind));
            assert_eq!(taken, expected, "{kind}");
        }
    }
}
