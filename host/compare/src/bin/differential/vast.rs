//! Joins that end where 32 bits do, into an output that is written: 4 GiB.

use compare::{LABEL_TARGET, MOST_CODE, Piece, Vast, X64};

use crate::families::Handed;
use crate::runner::Runner;
use crate::self_test::Findings;

/// Where the last piece starts, and an offset in it that is moved to the last that there is.
const LAST_BASE: u32 = 255 << 24;
const LAST: u32 = 4_294_967_294 - LAST_BASE;
/// The piece that calls the last one, the offset of its call and of the label that it calls.
const CALLING: usize = 200;
const CALL: u32 = 16;
const CALLED: u32 = 5;

/// 256 pieces of 16 MiB, of which the last is so much shorter; the last offset of it is a label's and a relocation's, moved by as much.
fn handed(shorter: u32, moved: u32) -> Handed {
    let mut pieces = vec![Piece::new(X64, 64, Vec::new()); 256];
    for piece in &mut pieces {
        piece.vast = Some(MOST_CODE as u32);
    }
    pieces[CALLING].relocations = vec![[CALL, 3, 7, 0, 0, 0]];
    let last = &mut pieces[255];
    last.vast = Some(MOST_CODE as u32 - shorter);
    last.labels = vec![CALLED, LAST + moved];
    last.relocations = vec![[0, 2, 7, 0, 0, 0], [LAST + moved, 1, LABEL_TARGET, 0, 0, 0]];
    last.definitions = vec![[7, 0]];
    let mut handed = Handed::new(pieces);
    handed.is_vast = Vast::Written;
    handed
}

/// Runs both sides of each limit.
pub fn run() -> Findings {
    let mut findings = Findings::default();
    let mut runner = Runner::default();
    for (shorter, moved, number) in [(1, 0, 23), (2, 1, 23), (0, 0, 23), (2, 0, 0)] {
        let outcome = runner.run(&handed(shorter, moved).into_scenario(1));
        let refusal = outcome.map(|outcome| outcome.refusal);
        findings.add(matches!(refusal, Ok(refusal) if refusal == number), || {
            format!("{shorter} bytes shorter, moved by {moved}: {refusal:?}")
        });
    }
    let output = Vast::Written.output().expect("it is vast");
    // SAFETY: so many bytes are mapped there, and nobody writes them any longer.
    let output = unsafe { std::slice::from_raw_parts(output, compare::vast::VAST) };
    let calling = CALLING << 24 | CALL as usize;
    let value = LAST_BASE + CALLED - calling as u32;
    let fields = [(calling, value), (LAST_BASE as usize, CALLED)];
    for (at, value) in fields {
        let is_filled = output[at..][..4] == value.to_le_bytes();
        findings.add(is_filled, || format!("the field at {at}"));
    }
    let written = output.iter().filter(|byte| **byte != 0).count();
    let filled = fields.iter().flat_map(|(_, value)| value.to_le_bytes());
    let filled = filled.filter(|byte| *byte != 0).count();
    findings.add(written == filled, || "bytes outside fields".into());
    findings
}
