//! The architectures that take a code or kind are those that the verified library lets it pass on.

use wargnifla::{Arch, Call, CodeBuffer, LabelUse, Reloc};

/// Whether an architecture takes a call, once a label is made.
fn takes(arch: Arch, call: &Call) -> bool {
    let mut buffer = CodeBuffer::new(arch);
    buffer.call(&Call::NewLabel).unwrap();
    match buffer.call(call) {
        Ok(()) => true,
        Err(error) => {
            assert!([6, 7].contains(&error.number()), "{error}");
            false
        }
    }
}

#[test]
fn codes_have_their_architectures() {
    for code in LabelUse::ALL {
        let call = Call::Use {
            offset: 0,
            label: 0,
            code: code.code(),
        };
        let taking = Arch::ALL.into_iter().filter(|arch| takes(*arch, &call));
        assert!(taking.eq(code.archs().iter().copied()), "{code}");
    }
}

#[test]
fn kinds_have_their_architectures() {
    for kind in Reloc::ALL {
        let call = Call::Relocation {
            offset: 0,
            kind: kind.number(),
            target: 1 << 31,
            addend: 0,
        };
        let taking = Arch::ALL.into_iter().filter(|arch| takes(*arch, &call));
        assert!(taking.eq(kind.archs().iter().copied()), "{kind}");
    }
}
