//! What finish did not write can be asked of its record.

use wargnifla::{
    Arch, Call, CodeBuffer, Unpatched, WhyUnpatched, read_text, symbols_named, write_sheet,
};

fn unpatched(arch: Arch, text: &str) -> Vec<Unpatched> {
    let mut buffer = crate::recorded(arch, text).unwrap();
    buffer.finish().unwrap().unpatched().to_vec()
}

/// What is left unwritten of a text: the reason, and whether something else fills the field.
fn whys(arch: Arch, text: &str) -> Vec<(WhyUnpatched, bool)> {
    let entries = unpatched(arch, text);
    entries
        .iter()
        .map(|entry| (entry.why, entry.filled))
        .collect()
}

#[test]
fn jumps_and_refs_off_x64_are_not_kept() {
    let text = "n; l 0; z 9; j 0 5 0; r 5 0 0 -3; j 7 99 3 77";
    for arch in [Arch::X86, Arch::AArch64] {
        let entries = unpatched(arch, &text.replace("r 5 0 0", "r 5 0 9"));
        let calls: Vec<&Call> = entries.iter().map(|entry| &entry.call).collect();
        let script = read_text(&text.replace("r 5 0 0", "r 5 0 9")).unwrap();
        assert_eq!(calls, script.calls[3..].iter().collect::<Vec<_>>());
        let all_not_kept = entries
            .iter()
            .all(|entry| entry.why == WhyUnpatched::NotKept);
        assert!(all_not_kept);
    }
    assert_eq!(unpatched(Arch::X64, "n; l 0; z 5; j 0 5 0"), []);
}

#[test]
fn a_sheet_leaves_what_its_calls_leave() {
    let calls = read_text("n; l 0; z 9; j 0 5 0; r 5 0 0").unwrap().calls;
    let mut buffer = CodeBuffer::with_symbols(Arch::X86, symbols_named(&calls));
    buffer.run_sheet(&write_sheet(&calls).unwrap()).unwrap();
    let refused = read_text("j 0 5 0; l 9; r 5 0 0").unwrap().calls;
    buffer
        .run_sheet(&write_sheet(&refused).unwrap())
        .unwrap_err();
    let mut broken = write_sheet(&read_text("j 0 5 0; n").unwrap().calls).unwrap();
    broken[5] = 77;
    buffer.run_sheet(&broken).unwrap_err();
    let entries = buffer.finish().unwrap().unpatched().to_vec();
    let names: Vec<&str> = entries.iter().map(|entry| entry.call.name()).collect();
    assert_eq!(names, ["jump", "ref", "jump"]);
}

#[test]
fn refs_without_and_uses_with_a_jump_are_not_patched() {
    use WhyUnpatched::{BesideJump, NoJump};
    let x64 = |text: &str| whys(Arch::X64, text);
    assert_eq!(x64("n; l 0; z 9; r 5 0 0; u 1 0 0"), [(NoJump, false)]);
    assert_eq!(x64("n; l 0; z 9; r 5 0 0; u 5 0 0"), [(NoJump, true)]);
    let beside_jump = |calls: &str| x64(&format!("n; n; l 0; l 1; z 9; j 4 5 0; {calls}"));
    assert_eq!(beside_jump("u 0 0 0"), [(BesideJump, false)]);
    assert_eq!(beside_jump("u 0 0 0; r 0 0 0"), [(BesideJump, true)]);
    assert_eq!(beside_jump("u 0 0 0; r 0 1 0"), [(BesideJump, false)]);
    assert_eq!(beside_jump("u 0 0 1; r 0 0 0"), [(BesideJump, false)]);
    assert_eq!(beside_jump("u 5 0 0"), [(BesideJump, true)]);
    assert_eq!(beside_jump("u 5 1 0"), [(BesideJump, false)]);
    assert_eq!(beside_jump("r 0 0 0"), []);
}

#[test]
fn a_jump_whose_displacement_is_a_use_is_filled_on_x86() {
    let text = "n; l 0; b E900000000; j 0 5 0; ";
    assert_eq!(whys(Arch::X86, text), [(WhyUnpatched::NotKept, false)]);
    let with_use = format!("{text} u 1 0 0");
    assert_eq!(whys(Arch::X86, &with_use), [(WhyUnpatched::NotKept, true)]);
}

#[test]
fn constants_that_are_not_asked_for_are_named() {
    for arch in Arch::ALL {
        let unasked = |text: &str| -> Vec<u32> {
            let mut buffer = crate::recorded(arch, text).unwrap();
            let finished = buffer.finish().unwrap();
            let unasked = finished.unasked_constants().iter();
            unasked.map(|constant| constant.id()).collect()
        };
        assert_eq!(unasked("c 01; c 02; c; k 1"), [0, 2]);
        assert_eq!(unasked("c 01; c 01; k 1; k 1"), [0]);
        assert_eq!(unasked("c 01; k 0; c 02; k 1"), []);
        assert_eq!(unasked("b 90"), []);
    }
}
