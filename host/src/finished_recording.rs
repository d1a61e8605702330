//! A recording and what finish made of it, kept together: a listing, the rounds and a picture need both.

use std::sync::OnceLock;

use crate::listing::{listing, listing_with_source, record};
use crate::{CodeBufferFinalized, Recording, Rounds, SourceText, Style};

/// Finished code with the recording that it was made of, to be shown. Made by
/// [`CodeBuffer::finish_with_recording`](crate::CodeBuffer::finish_with_recording), so that the two belong together.
///
/// ```
/// use wargnifla::{Arch, CodeBuffer, Extent};
///
/// # fn main() -> Result<(), wargnifla::Error> {
/// let mut buffer = CodeBuffer::new(Arch::X64);
/// let end = buffer.get_label()?;
/// buffer.name_label(end, "end");
/// buffer.put_jump(end, None)?;
/// buffer.try_align_to(4)?;
/// buffer.try_bind_label(end)?;
/// let finished = buffer.finish_with_recording()?;
/// assert_eq!(finished.code().data(), [0xEB, 2, 0x66, 0x90]);
/// let listing = finished.listing(Extent::Full);
/// assert!(listing.contains("0  EB 02                       jmp short to label end at 4, distance 2\n"));
/// assert_eq!(finished.record(), "finished for X64: 4 bytes, alignment 32, layouts 1, long jumps 0 of 1");
/// # Ok(())
/// # }
/// ```
#[derive(Clone, Debug)]
pub struct FinishedRecording {
    recording: Recording,
    recorded: Vec<u8>,
    code: CodeBufferFinalized,
    /// Reckoned when they are first asked for.
    rounds: OnceLock<Rounds>,
}

impl FinishedRecording {
    /// What belongs together: a recording before finish, its bytes, and the code.
    pub(crate) fn new(recording: Recording, recorded: Vec<u8>, code: CodeBufferFinalized) -> Self {
        Self {
            recording,
            recorded,
            code,
            rounds: OnceLock::new(),
        }
    }

    /// The recording as it was before finish. Its events have the alignments of X86 and AArch64, too, which a [`CodeBuffer`](crate::CodeBuffer) does
    /// not show.
    #[must_use]
    pub fn recording(&self) -> &Recording {
        &self.recording
    }

    /// The bytes as they were recorded.
    #[must_use]
    pub fn recorded(&self) -> &[u8] {
        &self.recorded
    }

    /// The finished code.
    #[must_use]
    pub fn code(&self) -> &CodeBufferFinalized {
        &self.code
    }

    /// The finished code alone.
    #[must_use]
    pub fn into_code(self) -> CodeBufferFinalized {
        self.code
    }

    /// The finished code as a listing: offset, bytes, and what they are.
    #[must_use]
    pub fn listing(&self, style: impl Into<Style>) -> String {
        listing(&self.recording, &self.code, style)
    }

    /// The same with the lines of the text that the recording comes from above what they made.
    #[must_use]
    pub fn listing_with_source(&self, source: &SourceText<'_>, style: impl Into<Style>) -> String {
        listing_with_source(&self.recording, &self.code, source, style)
    }

    /// What finish reports, in one line.
    #[must_use]
    pub fn record(&self) -> String {
        record(&self.recording, &self.code)
    }

    /// The rounds of relaxation, reckoned again from what was recorded; there are none without a jump. [`Rounds::check`] compares them with what
    /// finish reports.
    #[must_use]
    pub fn rounds(&self) -> &Rounds {
        self.rounds.get_or_init(|| Rounds::new(&self.recording))
    }
}
