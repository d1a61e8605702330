//! What is measured: the C functions, the host's wrapper, the Rust, a copy.

use std::hint::black_box;

use compare::{Lending, Lent, MOST_CODE, MOST_ENTRIES, Ours, Part, Reply};
use reference::{Call, Finished, Recording, Sheet};
use wargnifla::{Arch, CodeBuffer, CodeBufferFinalized, Error, Label, RelaxableJump};

use crate::inputs::{OneCall, Step};

/// One that records and finishes, some recordings at a time.
pub trait Side {
    /// Forgets what was recorded and finished.
    fn clear(&mut self);
    fn record(&mut self, steps: &[Step]);
    fn finish(&mut self);
    /// What the first recording finished to.
    fn code(&mut self) -> &[u8];
    /// Records, finishes and forgets one recording, a local variable if it owns memory.
    fn whole(&mut self, steps: &[Step]) {
        self.record(steps);
        self.finish();
    }
}

/// Memory for as many recordings, lent to the C functions before anything is timed: as large as the limits allow, where there is one recording.
pub fn memory(recordings: usize) -> Vec<Ours> {
    let (most_code, most_entries) = match recordings {
        1 => (MOST_CODE, MOST_ENTRIES),
        _ => (4_096, 256),
    };
    let mut lent = Lent::default();
    for part in Part::ALL {
        let entries = match part {
            Part::Counts | Part::Record => 1,
            Part::Code | Part::Output => most_code,
            _ => most_entries,
        };
        lent[part] = vec![0; entries * part.entry_bytes()];
    }
    let one = || {
        let mut ours = Ours::default();
        ours.lend(&lent, 0);
        ours
    };
    (0..recordings).map(|_| one()).collect()
}

/// The C functions. Nothing is cleared between runs.
pub struct Verified<'a> {
    arch: u32,
    lendings: Vec<Lending<'a>>,
}

impl<'a> Verified<'a> {
    pub fn new(arch: u32, memory: &'a mut [Ours]) -> Self {
        let lendings = memory.iter_mut().map(Ours::lending).collect();
        Self { arch, lendings }
    }

    /// A word of what the first recording's finish reports.
    fn record_word(&self, number: usize) -> u32 {
        word(self.content(Part::Record), number)
    }

    /// What the first recording was lent of a part, or left there.
    pub fn content(&self, part: Part) -> &[u8] {
        self.lendings[0].content(part)
    }

    pub fn run_sheet(&mut self, sheet: &[u8]) {
        for lending in &mut self.lendings {
            accepted(lending.run_sheet(sheet));
        }
    }

    pub fn write_relas(&mut self, section: u32) {
        for lending in &mut self.lendings {
            accepted(lending.write_relas(section));
        }
    }

    pub fn read_relas(&mut self) {
        for lending in &mut self.lendings {
            accepted(lending.read_relas());
        }
    }

    pub fn layouts(&self) -> u32 {
        self.record_word(3)
    }

    /// The length of each event of the first recording, as finish laid it out.
    pub fn event_lengths(&self) -> impl Iterator<Item = u32> {
        let events = word(self.content(Part::Counts), 6) as usize;
        let segments = self.content(Part::Segments);
        let segments = segments.chunks_exact(Part::Segments.entry_bytes());
        segments
            .take(events)
            .map(|segment| word(segment, 3) - word(segment, 2))
    }
}

pub fn word(bytes: &[u8], number: usize) -> u32 {
    let bytes = bytes[4 * number..][..4].try_into();
    u32::from_le_bytes(bytes.expect("a word has four bytes"))
}

impl Side for Verified<'_> {
    fn clear(&mut self) {}

    fn record(&mut self, steps: &[Step]) {
        for lending in &mut self.lendings {
            accepted(lending.start(self.arch, 0));
            for step in steps {
                record_by_verified(lending, step);
            }
        }
    }

    fn finish(&mut self) {
        for lending in &mut self.lendings {
            accepted(lending.finish());
        }
    }

    fn code(&mut self) -> &[u8] {
        let length = self.record_word(1) as usize;
        &self.content(Part::Output)[..length]
    }
}

fn record_by_verified(lending: &mut Lending<'_>, step: &Step) {
    match step {
        Step::Sheet(sheet) => accepted(lending.run_sheet(sheet)),
        Step::Bytes(bytes) => accepted(lending.put_bytes(bytes)),
        Step::Calls(calls) => {
            for one in calls {
                accepted(match &one.call {
                    Call::Bytes(bytes) => lending.put_bytes(bytes),
                    _ => lending.run_sheet(&one.sheet),
                });
            }
        }
    }
}

pub fn accepted(reply: Reply) {
    assert_eq!(reply.refusal, 0, "ours refuses a call: {reply:?}");
}

/// The host's safe wrapper, call by call, on X64.
#[derive(Default)]
pub struct Wrapper {
    buffer: Option<CodeBuffer>,
    finished: Option<CodeBufferFinalized>,
}

impl Side for Wrapper {
    fn clear(&mut self) {
        *self = Self::default();
    }

    fn record(&mut self, steps: &[Step]) {
        let buffer = self.buffer.insert(CodeBuffer::new(Arch::X64));
        record_by_wrapper(buffer, steps);
    }

    fn finish(&mut self) {
        let buffer = self.buffer.as_mut().expect("something was recorded");
        self.finished = Some(buffer.finish().expect("the wrapper finishes"));
    }

    fn code(&mut self) -> &[u8] {
        let finished = self.finished.as_ref();
        finished.map_or(&[], CodeBufferFinalized::data)
    }

    fn whole(&mut self, steps: &[Step]) {
        let mut buffer = CodeBuffer::new(Arch::X64);
        record_by_wrapper(&mut buffer, steps);
        black_box(buffer.finish()).expect("the wrapper finishes");
    }
}

fn record_by_wrapper(buffer: &mut CodeBuffer, steps: &[Step]) {
    for step in steps {
        let made = match step {
            Step::Sheet(sheet) => buffer.run_sheet(sheet),
            Step::Bytes(bytes) => buffer.put_bytes(bytes),
            Step::Calls(calls) => calls.iter().try_for_each(|one| make(buffer, one)),
        };
        made.expect("the wrapper takes every step");
    }
}

/// One call by its method.
fn make(buffer: &mut CodeBuffer, one: &OneCall) -> Result<(), Error> {
    match one.call {
        Call::Bytes(ref bytes) => buffer.put_bytes(bytes),
        Call::NewLabel => buffer.get_label().map(|_| ()),
        Call::Bind(label) => buffer.try_bind_label(Label::from_id(label)),
        Call::Align { multiple, most: 0 } => buffer.try_align_to(multiple),
        Call::Jump {
            start,
            length,
            label,
            ..
        } => buffer.record_relaxable_jump(RelaxableJump {
            start,
            len: length as u8,
            label: Label::from_id(label),
            cc: one.condition,
        }),
        _ => unreachable!("a rule has no other calls"),
    }
}

/// How the Rust hands out what it finished.
#[derive(Clone, Copy)]
pub enum HandOut {
    /// `finish`, which copies its vectors.
    Copies,
    /// `finish_owned`, which moves them.
    Owned,
}

impl HandOut {
    fn finish(self, recording: &mut Recording) -> Result<Finished, reference::Error> {
        match self {
            Self::Copies => recording.finish(),
            Self::Owned => recording.finish_owned(),
        }
    }
}

/// The Rust. Its recordings grow their vectors.
pub struct Rust {
    arch: u32,
    hand_out: HandOut,
    count: usize,
    recordings: Vec<Recording>,
    finished: Vec<Result<Finished, reference::Error>>,
}

impl Rust {
    pub fn new(arch: u32, count: usize, hand_out: HandOut) -> Self {
        Self {
            arch,
            hand_out,
            count,
            recordings: Vec::with_capacity(count),
            finished: Vec::with_capacity(count),
        }
    }
}

impl Side for Rust {
    fn clear(&mut self) {
        self.recordings.clear();
        self.finished.clear();
    }

    fn record(&mut self, steps: &[Step]) {
        for _ in 0..self.count {
            self.recordings.push(new_recording(self.arch));
            let recording = self.recordings.last_mut().expect("one was pushed");
            record_by_rust(recording, steps);
        }
    }

    fn finish(&mut self) {
        for recording in &mut self.recordings {
            self.finished.push(self.hand_out.finish(recording));
        }
    }

    fn code(&mut self) -> &[u8] {
        let [first, ..] = &self.finished[..] else {
            return &[];
        };
        first.as_ref().expect("the Rust finishes").code()
    }

    fn whole(&mut self, steps: &[Step]) {
        let mut recording = new_recording(self.arch);
        record_by_rust(&mut recording, steps);
        let finished = self.hand_out.finish(&mut recording);
        assert!(black_box(finished).is_ok(), "the Rust finishes");
    }
}

fn new_recording(arch: u32) -> Recording {
    Recording::new(arch, 0).expect("the Rust knows the architecture")
}

fn record_by_rust(recording: &mut Recording, steps: &[Step]) {
    for step in steps {
        match step {
            Step::Bytes(bytes) => recording.bytes(bytes).expect("the Rust takes bytes"),
            Step::Calls(calls) => {
                for one in calls {
                    call_rust(recording, &one.call);
                }
            }
            Step::Sheet(bytes) => {
                let sheet = Sheet::read(bytes).expect("the sheet is well formed");
                for one in sheet.calls() {
                    call_rust(recording, &one);
                }
            }
        }
    }
}

fn call_rust(recording: &mut Recording, call: &Call<'_>) {
    recording.call(call).expect("the Rust takes every call");
}

/// A copy of as many bytes as may be recorded, in the place of a finish.
pub struct Copy {
    from: Vec<u8>,
    to: Vec<u8>,
}

impl Copy {
    pub fn new() -> Self {
        Self {
            from: vec![0x90; MOST_CODE],
            to: vec![0; MOST_CODE],
        }
    }
}

impl Side for Copy {
    fn clear(&mut self) {}

    fn record(&mut self, _: &[Step]) {
        black_box(&mut self.from).fill(0x90);
    }

    fn finish(&mut self) {
        self.to.copy_from_slice(black_box(&self.from));
        black_box(&mut self.to);
    }

    fn code(&mut self) -> &[u8] {
        &self.to
    }
}
