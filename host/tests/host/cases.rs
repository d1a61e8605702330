//! Document 01's cases that a whole recording shows.

use wargnifla::{Arch, CodeBufferFinalized, Label};

use crate::{finished, recorded};

/// Finished length, layouts and long jumps, as document 01 prints them.
fn row(code: &CodeBufferFinalized) -> [usize; 3] {
    let long = code
        .segments()
        .iter()
        .filter(|s| s.new_end - s.new_start > 2);
    [code.total_size(), code.layouts() as usize, long.count()]
}

#[test]
fn case_a_just_reaches() {
    let code = finished("n; z 5; j 0 5 0; z 127; l 0");
    assert_eq!(row(&code), [129, 1, 0]);
    assert_eq!(code.data()[..2], [0xEB, 0x7F]);
    assert!(code.data()[2..].iter().all(|byte| *byte == 0));
    assert_eq!(code.label_offset(Label::from_id(0)), Some(129));
    assert_eq!(code.alignment(), 32);
}

#[test]
fn case_b_is_one_byte_too_far() {
    let code = finished("n; z 5; j 0 5 0; z 128; l 0");
    assert_eq!(row(&code), [133, 2, 1]);
    assert_eq!(code.data()[..5], [0xE9, 0x80, 0, 0, 0]);
}

#[test]
fn case_c_needs_every_round() {
    let code = finished("n; n; z 5; j 0 5 0; z 5; j 5 5 1; z 125; l 0; z 3; l 1");
    assert_eq!(row(&code), [138, 3, 2]);
    assert_eq!(code.data()[..5], [0xE9, 130, 0, 0, 0]);
    assert_eq!(code.data()[5..10], [0xE9, 128, 0, 0, 0]);
    assert_eq!(code.label_offsets(), [135, 138]);
}

#[test]
fn case_d_pads_anew() {
    let code = finished("n; z 5; j 0 5 0; a 16; l 0");
    assert_eq!(code.layouts(), 1);
    let expected = [
        0xEB, 0x0E, 0x66, 0x0F, 0x1F, 0x84, 0, 0, 0, 0, 0, 0x0F, 0x1F, 0x44, 0, 0,
    ];
    assert_eq!(code.data(), expected);
}

#[test]
fn case_e_is_the_farthest_back() {
    let code = finished("n; l 0; z 126; z 5; j 126 5 0");
    assert_eq!(code.data()[126..], [0xEB, 0x80]);
}

#[test]
fn case_f_is_one_byte_farther_back() {
    let code = finished("n; l 0; z 127; z 5; j 127 5 0");
    assert_eq!(code.data()[127..], [0xE9, 0x7C, 0xFF, 0xFF, 0xFF]);
}

#[test]
fn conditional_jumps_have_their_opcodes() {
    for condition in 0..16_u8 {
        let short = finished(&format!("n; z 6; j 0 6 0 {condition}; l 0"));
        assert_eq!(short.data(), [0x70 + condition, 0]);
        let long = finished(&format!("n; z 6; j 0 6 0 {condition}; z 128; l 0"));
        assert_eq!(long.data()[..6], [0x0F, 0x80 + condition, 128, 0, 0, 0]);
    }
}

fn aarch64_word(text: &str, offset: usize) -> u32 {
    let mut buffer = recorded(Arch::AArch64, text).unwrap();
    let code = buffer.finish().unwrap();
    u32::from_le_bytes(code.data()[offset..offset + 4].try_into().unwrap())
}

#[test]
fn cases_g_to_j_patch_instruction_words() {
    let g = "n; b 00000014; u 0 0 11; z 4; l 0";
    assert_eq!(aarch64_word(g, 0), 0x1400_0002);
    let h = "n; l 0; z 4; b 00000010; u 4 0 13";
    assert_eq!(aarch64_word(h, 4), 0x10FF_FFE0);
    let i = "n; z 0xFFC; b 00000090; u 0xFFC 0 14; l 0";
    assert_eq!(aarch64_word(i, 0xFFC), 0xB000_0000);
    let j = "n; b 00000091; u 0 0 16; z 0x11F; l 0";
    assert_eq!(aarch64_word(j, 0), 0x9104_8C00);
}

#[test]
fn a_recording_without_a_jump_keeps_its_bytes_and_patches_uses() {
    let code = finished("n; b E8 FC FF FF FF; u 1 0 0; r 1 0 0 7; a 8; l 0; b C3");
    assert_eq!(code.layouts(), 0);
    assert_eq!(code.segments(), []);
    // The value in the field, -4, is added: 8 - 5 - 4.
    assert_eq!(
        code.data(),
        [0xE8, 0xFF, 0xFF, 0xFF, 0xFF, 0x0F, 0x1F, 0x00, 0xC3]
    );
}
