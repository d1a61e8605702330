//! The wrapper's methods, one by one.

use wargnifla::{
    Arch, AsmReloc, CodeBuffer, Condition, Constant, Label, LabelUse, LayoutEvent, MOST_CODE,
    MOST_ENTRIES, Refusal, RelaxableJump, Reloc, RelocTarget, Sym, UNBOUND,
};

#[test]
fn puts_are_little_endian() {
    let mut buffer = CodeBuffer::new(Arch::X86);
    buffer.put1(0x01).unwrap();
    buffer.put2(0x0302).unwrap();
    buffer.put4(0x0706_0504).unwrap();
    buffer.put8(0x0F0E_0D0C_0B0A_0908).unwrap();
    let expected: Vec<u8> = (1..16).collect();
    assert_eq!(buffer.data(), expected);
    assert_eq!(buffer.cur_offset(), 15);
    assert_eq!(buffer.arch(), Arch::X86);
}

#[test]
fn labels_are_made_and_bound() {
    let mut buffer = CodeBuffer::new(Arch::X64);
    let (first, second) = (buffer.get_label().unwrap(), buffer.get_label().unwrap());
    assert_eq!((first.id(), second.id(), buffer.label_count()), (0, 1, 2));
    buffer.put4(0).unwrap();
    buffer.try_bind_label(second).unwrap();
    assert_eq!(buffer.label_offset(first), None);
    assert_eq!(buffer.label_offset(second), Some(4));
    assert!(!buffer.is_bound(first) && buffer.is_bound(second));
    let unknown = Label::from_id(2);
    assert_eq!(buffer.label_offset(unknown), None);
    assert!(!buffer.is_bound(unknown));
    let code = buffer.finish().unwrap();
    let offsets = [first, second, unknown].map(|label| code.label_offset(label));
    assert_eq!(offsets, [None, Some(4), None]);
    assert_eq!(code.label_offsets(), [UNBOUND, 4]);
}

#[test]
fn a_jump_is_put_with_its_bytes() {
    let put = |arch, cc| {
        let mut buffer = CodeBuffer::new(arch);
        let end = buffer.get_label().unwrap();
        buffer.put1(0x90).unwrap();
        buffer.put_jump(end, cc).unwrap();
        buffer.put1(0x90).unwrap();
        buffer.try_bind_label(end).unwrap();
        buffer
    };
    for cc in Condition::ALL {
        let opcode = 0x80 + cc.number() as u8;
        let mut buffer = put(Arch::X64, Some(cc));
        let long = [0x90, 0x0F, opcode, 0, 0, 0, 0, 0x90];
        assert_eq!(buffer.data(), long);
        assert_eq!(
            buffer.finish().unwrap().data(),
            [0x90, opcode - 0x10, 1, 0x90]
        );
        let code = put(Arch::X86, Some(cc)).finish().unwrap();
        assert_eq!(code.data(), [0x90, 0x0F, opcode, 1, 0, 0, 0, 0x90]);
        assert_eq!(code.unpatched(), []);
    }
    let mut buffer = put(Arch::X64, None);
    assert_eq!(buffer.data(), [0x90, 0xE9, 0, 0, 0, 0, 0x90]);
    assert_eq!(buffer.finish().unwrap().data(), [0x90, 0xEB, 1, 0x90]);
    let code = put(Arch::X86, None).finish().unwrap();
    assert_eq!(code.data(), [0x90, 0xE9, 1, 0, 0, 0, 0x90]);
}

/// A jump that is refused leaves the recording as it was, but for the refusal.
#[test]
fn a_refused_jump_leaves_no_bytes() {
    let refused = |mut buffer: CodeBuffer, label: Label, number: u32, sentence: &str| {
        let before = buffer.recording();
        for cc in [None, Some(Condition::Ne)] {
            let error = buffer.put_jump(label, cc).unwrap_err();
            assert_eq!(error.number(), number, "{error}");
            assert!(error.sentence().contains(sentence), "{error}");
        }
        assert_eq!(buffer.recording(), before);
        assert_eq!(buffer.error().map_or(4, |error| error.number()), number);
        assert!(buffer.finish().is_err());
    };
    let with_label = |arch| {
        let mut buffer = CodeBuffer::new(arch);
        let label = buffer.get_label().unwrap();
        buffer.put1(0x90).unwrap();
        (buffer, label)
    };
    for arch in [Arch::X86, Arch::X64] {
        let unknown = Label::from_id(1);
        refused(with_label(arch).0, unknown, 8, "label 1 is unknown");
        let (mut buffer, label) = with_label(arch);
        buffer.try_bind_label(label).unwrap();
        buffer.finish().unwrap();
        refused(buffer, label, 4, "finished");
        for left in [0, 4] {
            let (mut buffer, label) = with_label(arch);
            buffer.put_bytes(&vec![0; MOST_CODE - 1 - left]).unwrap();
            refused(buffer, label, 12, "more bytes at");
        }
        let (mut buffer, label) = with_label(arch);
        buffer.add_constant(&[0; 65]).unwrap_err();
        refused(buffer, label, 10, "a constant of 65 bytes");
    }
    let (buffer, label) = with_label(Arch::AArch64);
    refused(buffer, label, 7, "X86JmpRel32) is foreign to AArch64");
    let (mut buffer, label) = with_label(Arch::X64);
    for _ in 0..MOST_ENTRIES {
        buffer.try_align_to(1).unwrap();
    }
    refused(buffer, label, 11, "the table of events");
    let (mut buffer, label) = with_label(Arch::X86);
    for _ in 0..MOST_ENTRIES {
        buffer
            .use_label_at_offset(0, label, LabelUse::X86JmpRel32)
            .unwrap();
    }
    refused(buffer, label, 11, "the table of uses");
}

#[test]
fn jumps_that_are_put_fill_the_code_and_the_table() {
    let (mut buffer, most) = (CodeBuffer::new(Arch::X64), MOST_CODE - 11);
    let label = buffer.get_label().unwrap();
    buffer.try_bind_label(label).unwrap();
    buffer.put_bytes(&vec![0x90; most]).unwrap();
    buffer.put_jump(label, None).unwrap();
    buffer.put_jump(label, Some(Condition::G)).unwrap();
    assert_eq!(buffer.finish().unwrap().total_size(), MOST_CODE);
    let mut buffer = CodeBuffer::new(Arch::X64);
    let label = buffer.get_label().unwrap();
    for _ in 0..MOST_ENTRIES {
        buffer.put_jump(label, None).unwrap();
    }
    buffer.put_jump(label, None).unwrap_err();
    assert_eq!(buffer.data().len(), 5 * MOST_ENTRIES);
}

#[test]
fn a_clone_goes_its_own_way_and_finishes_alike() {
    let mut first = CodeBuffer::with_symbols(Arch::X86, 1);
    let end = first.get_label().unwrap();
    first.name_label(end, "end");
    first.bind_symbol("sort", end);
    first.put_bytes(&[0xE9, 0, 0, 0, 0]).unwrap();
    let field = LabelUse::X86JmpRel32;
    first.use_label_at_offset(1, end, field).unwrap();
    first.record_label_ref(1, end, field, 0).unwrap();
    let mut second = first.clone();
    assert_eq!(second.recording(), first.recording());
    second.put1(0x90).unwrap();
    assert_eq!((first.cur_offset(), second.cur_offset()), (5, 6));
    let mut third = first.clone();
    for buffer in [&mut first, &mut third] {
        buffer.try_bind_label(end).unwrap();
    }
    assert_eq!(second.label_offset(end), None);
    let [first, third] = [first, third].map(|mut buffer| buffer.finish().unwrap());
    assert_eq!(first, third);
    assert_eq!(first.defined_symbol_offset("sort"), Some(5));
    assert_eq!(
        first.unpatched().len(),
        1,
        "the ref, which X86 does not keep"
    );
    let error = second.finish().unwrap_err();
    assert_eq!(error.refusal(), Refusal::UnboundLabel);
    second.try_bind_label(end).unwrap();
    assert_eq!(second.finish().unwrap().data()[1], 1);
    let finished = second.clone();
    assert!(finished.is_finished());
    let mut refused = CodeBuffer::new(Arch::X64);
    refused.try_bind_label(end).unwrap_err();
    refused.add_constant(&[0; 65]).unwrap_err();
    assert_eq!(refused.clone().error(), refused.error());
    assert!(refused.clone().put1(0).is_err());
}

#[test]
fn a_constants_label_is_made_once() {
    let mut buffer = CodeBuffer::new(Arch::X64);
    let small = buffer.add_constant(&[1; 8]).unwrap();
    let large = buffer.add_constant(&[2; 64]).unwrap();
    let asked = buffer.get_label_for_constant(large).unwrap();
    assert_eq!(buffer.get_label_for_constant(large).unwrap(), asked);
    assert_eq!(buffer.label_count(), 1);
    buffer.put1(0xC3).unwrap();
    let code = buffer.finish().unwrap();
    assert_eq!((small.id(), code.label_offset(asked)), (0, Some(64)));
    assert_eq!(
        code.total_size(),
        128,
        "a constant never asked for is not pooled"
    );
    assert_eq!(code.data()[64..], [2; 64]);
    assert_eq!(buffer.recording().asked, [Constant::from_id(1)]);
}

#[test]
fn jumps_and_refs_are_kept_on_x64_alone() {
    for arch in Arch::ALL {
        let mut buffer = CodeBuffer::new(arch);
        let label = buffer.get_label().unwrap();
        buffer.try_bind_label(label).unwrap();
        buffer.put8(0).unwrap();
        let jump = RelaxableJump {
            start: 2,
            len: 6,
            label,
            cc: Some(Condition::G),
        };
        buffer.record_relaxable_jump(jump).unwrap();
        buffer
            .record_label_ref(0, label, LabelUse::X86BranchRel8, -3)
            .unwrap();
        let recording = buffer.recording();
        let kept = usize::from(arch == Arch::X64);
        assert_eq!((recording.events.len(), recording.refs.len()), (kept, kept));
        if arch == Arch::X64 {
            assert_eq!(recording.events, [LayoutEvent::Jump(jump)]);
            assert_eq!(recording.refs[0].addend, -3);
        }
    }
}

#[test]
fn relocations_move_with_the_code_and_keep_64_bits() {
    let mut buffer = CodeBuffer::with_symbols(Arch::X64, 2);
    let label = buffer.get_label().unwrap();
    buffer.put_bytes(&[0; 5]).unwrap();
    let jump = RelaxableJump {
        start: 0,
        len: 5,
        label,
        cc: None,
    };
    buffer.record_relaxable_jump(jump).unwrap();
    buffer.try_bind_label(label).unwrap();
    let symbol = RelocTarget::Sym(Sym::from_id(1));
    buffer.add_reloc(Reloc::Abs8, symbol, i64::MIN + 5).unwrap();
    buffer.put8(0).unwrap();
    let target = RelocTarget::Label(label);
    buffer
        .add_reloc_at_offset(9, Reloc::X86PCRel4, target, -4)
        .unwrap();
    let recorded: Vec<u32> = buffer.relocs().iter().map(|reloc| reloc.offset).collect();
    assert_eq!(recorded, [5, 9]);
    let code = buffer.finish().unwrap();
    let expected = [
        AsmReloc {
            offset: 2,
            kind: Reloc::Abs8,
            addend: i64::MIN + 5,
            target: symbol,
        },
        AsmReloc {
            offset: 6,
            kind: Reloc::X86PCRel4,
            addend: -4,
            target,
        },
    ];
    assert_eq!(code.relocs(), expected);
    assert_eq!(buffer.relocs(), expected);
}

#[test]
fn targets_past_2_to_the_31_are_refused_as_unknown() {
    let far = 1 << 31;
    let targets = [
        RelocTarget::Label(Label::from_id(far)),
        RelocTarget::Sym(Sym::from_id(far)),
    ];
    for target in targets {
        let mut buffer = CodeBuffer::with_symbols(Arch::X64, 1);
        buffer.get_label().unwrap();
        let error = buffer.add_reloc(Reloc::Abs4, target, 0).unwrap_err();
        assert_eq!(error.number(), 8, "{error}");
    }
}

#[test]
fn padding_is_nops_on_x86_and_zeros_on_aarch64() {
    let padded = |arch| {
        let mut buffer = CodeBuffer::new(arch);
        buffer.put1(0xC3).unwrap();
        buffer.try_align_to(4).unwrap();
        buffer.data().to_vec()
    };
    assert_eq!(padded(Arch::X86), [0xC3, 0x0F, 0x1F, 0x00]);
    assert_eq!(padded(Arch::X64), [0xC3, 0x0F, 0x1F, 0x00]);
    assert_eq!(padded(Arch::AArch64), [0xC3, 0, 0, 0]);
}

#[test]
fn names_of_labels_stand_in_refusals() {
    let mut buffer = CodeBuffer::new(Arch::X64);
    let end = buffer.get_label().unwrap();
    buffer.name_label(end, "end");
    buffer.try_bind_label(end).unwrap();
    let error = buffer.try_bind_label(end).unwrap_err();
    assert_eq!(error.sentence(), "label end is bound already, to 0");
    assert_eq!(buffer.recording().names.get(end), Some("end"));
}
