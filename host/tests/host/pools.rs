//! Constants: where finish sets them, and the alignment that it reports.

use wargnifla::{Arch, CodeBufferFinalized, Label, Segment};

use crate::{finished, recorded};

/// `constant` with so many bytes, each of them 5A.
fn constant(size: usize) -> String {
    format!("c {}", "5A".repeat(size))
}

fn finished_on(arch: Arch, text: &str) -> CodeBufferFinalized {
    let mut buffer = recorded(arch, text).expect("an accepted recording");
    buffer.finish().expect("an accepted finish")
}

/// Sizes on both sides of each change: the multiple that a constant of the size stands on, and the alignment of code with it.
const SIZES: [(usize, usize, u32); 7] = [
    (0, 8, 32),
    (8, 8, 32),
    (9, 16, 32),
    (31, 16, 32),
    (32, 16, 32),
    (33, 64, 64),
    (64, 64, 64),
];

#[test]
fn a_constant_stands_on_the_multiple_of_its_size() {
    for arch in Arch::ALL {
        for (size, multiple, alignment) in SIZES {
            let code = finished_on(arch, &format!("b 90; {}; k 0", constant(size)));
            let place = code.label_offset(Label::from_id(0)).unwrap();
            assert_eq!(place as usize, multiple);
            assert_eq!(code.total_size(), multiple + size);
            assert_eq!(code.alignment(), alignment, "{arch}, {size} bytes");
            let padded = finished_on(arch, &format!("b 90; a {multiple}"));
            assert_eq!(code.data()[..multiple], *padded.data());
            assert_eq!(code.data()[multiple..], vec![0x5A; size]);
        }
    }
}

#[test]
fn its_padding_is_made_anew_where_a_jump_shrinks() {
    for (size, multiple, alignment) in SIZES {
        // Recorded on the multiple, without padding; the jump leaves 3 of its 5 bytes over.
        let run = multiple - 5;
        let text = format!("n; z 5; j 0 5 0; z {run}; l 0; {}; k 0", constant(size));
        let code = finished(&text);
        let at = multiple as u32;
        let padding = Segment {
            old_start: at,
            old_end: at,
            new_start: at - 3,
            new_end: at,
        };
        assert_eq!(code.segments()[1..], [padding], "{size} bytes");
        // A label at the code's end stands behind the padding that is gained there.
        assert_eq!(code.label_offsets(), [at, at]);
        assert_eq!(code.total_size(), multiple + size);
        assert_eq!((code.alignment(), code.layouts()), (alignment, 1));
    }
}

#[test]
fn a_constant_that_nobody_asks_for_changes_nothing() {
    let wide = constant(64);
    for arch in Arch::ALL {
        let code = finished_on(arch, &format!("b 90; {wide}"));
        assert_eq!((code.total_size(), code.alignment()), (1, 32), "{arch}");
        let code = finished_on(arch, &format!("b 90; {wide}; {}; k 1", constant(9)));
        assert_eq!(
            (code.total_size(), code.alignment()),
            (16 + 9, 32),
            "{arch}"
        );
    }
    let code = finished(&format!("n; z 5; j 0 5 0; l 0; {wide}"));
    assert_eq!((code.total_size(), code.alignment()), (2, 32));
}

#[test]
fn the_widest_of_those_asked_for_decides() {
    let constants = [8, 33, 9, 64].map(constant).join("; ");
    for arch in Arch::ALL {
        let code = finished_on(arch, &format!("b 90; {constants}; k 2; k 1; k 0; k 1"));
        assert_eq!(code.label_offsets(), [16, 64, 104], "{arch}");
        assert_eq!((code.total_size(), code.alignment()), (112, 64), "{arch}");
    }
}

#[test]
fn alignments_of_the_code_do_not_count() {
    for arch in Arch::ALL {
        let code = finished_on(arch, &format!("b 90; a 4096; {}; k 0", constant(32)));
        assert_eq!((code.total_size(), code.alignment()), (4096 + 32, 32));
    }
    assert_eq!(finished("n; z 5; j 0 5 0; a 64; l 0").alignment(), 32);
}

#[test]
fn a_jump_to_a_wide_constant_crosses_its_padding() {
    let code = |size| finished(&format!("{}; k 0; z 20; j 15 5 0; z 112", constant(size)));
    let (narrow, wide) = (code(32), code(33));
    assert_eq!((narrow.total_size(), narrow.layouts()), (144 + 32, 1));
    assert_eq!((wide.total_size(), wide.layouts()), (192 + 33, 2));
}

#[test]
fn a_wide_constant_may_end_the_code_at_its_limit() {
    let code = finished(&format!("z 16777152; {}; k 0", constant(64)));
    assert_eq!((code.total_size(), code.alignment()), (16_777_216, 64));
}
